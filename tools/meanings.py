"""What the answers of `nosleep` mean, and what a developer does about each: the words of the SARIF file and of the page."""

# Each status of a lock field in a few words.
STATUS = {
    "A": "null",
    "C0": "not held",
    "C1": "held once",
    "C2": "held twice",
    "CT": "held three times or more",
    "U0": "not held (uncounted)",
    "U1": "held (uncounted)",
    "L": "held, and lost from the field",
}

# Of each status that a report can have: its name, what is wrong, and what mends it.
REPORT = {
    "C1": ("HeldOnce", "The field holds a lock whose count is one when the callback has ended.",
           "Release the lock on each way out of the callback: on the ordinary return, and in a `finally` around each call "
           "between acquire and release that can throw."),
    "C2": ("HeldTwice", "The field holds a lock whose count is two when the callback has ended.",
           "Let there be as many releases as acquires on each way, or acquire only where `isHeld()` is false."),
    "CT": ("HeldOften", "The field holds a lock whose count is three or more when the callback has ended: an acquire is repeated, "
           "by a loop, by methods that call each other, or each time that a callback comes.",
           "Acquire only where `isHeld()` is false, or call `setReferenceCounted(false)` right after the lock is made, so that one "
           "release frees it."),
    "U1": ("HeldUncounted", "The field holds a lock that is not reference counted, and that is held when the callback has ended.",
           "One `release()` frees it, however often it was acquired: call it on each way out, and in a `finally`."),
    "L": ("Lost", "A lock that once was in the field is held when the callback has ended, and is in the field no more: nothing can "
          "release it. A new lock or null was stored over it, or the object whose field held it was made anew.",
          "Make the lock once, where the field is null, or release it before the field is stored to."),
}

# Each rule of scope: its name, what breaks it, and what a developer does about it.
RULE = {
    "N1": ("Native", "a listed callback is native, or what callbacks reach calls native code or loads a library",
           "Keep native code out of what the listed callbacks reach, or judge it by other means."),
    "N2": ("Reflection", "what callbacks reach uses reflection or a class loader",
           "Call the method itself, or let the listed callbacks not reach the reflective part."),
    "N3": ("Thread", "what callbacks reach makes or uses a thread, a timer, an executor or an asynchronous task",
           "Post the work to the main thread and list it as a runnable."),
    "N4": ("Escape", "a wake lock is handed on: to a call, another field or an array, or something else than null or a new lock is "
           "stored into a lock field",
           "Read the lock from its field where it is used, right before the use."),
    "N5": ("LockCall", "a call on a wake lock of another form, or on a lock that is in no field",
           "Use acquire, release, isHeld and setReferenceCounted on what a field holds."),
    "N6": ("TwoStores", "a second place stores a new lock into the same field",
           "Make the lock in one helper that all callers use, or use two fields."),
    "N7": ("Owner", "an instance field with a lock belongs to no listed component, or to more than one, or its object is made by code",
           "Hold the lock in a static field, or in a field of the one component that uses it."),
    "N8": ("Unreached", "code that uses a wake lock is reached by no listed callback",
           "List the component whose callback leads there, or remove dead code."),
    "N9": ("Unlisted", "a `run` or `on..` method that leads to a wake lock belongs to no listed component",
           "List it: a runnable with its class, a component with its kind."),
    "N10": ("Initialiser", "an initialiser that runs before any callback leads to a wake lock",
            "Make the lock in a callback, as `onCreate`."),
}

# The other answers by their kind, and by the first words of their text where these say more; the first that fits is taken.
ANSWER = [
    ("bad list NoClass", "NoListedClass",
     "The list names a class that none of the DEX files has: name all DEX files of the package, or take the component out of the list."),
    ("bad list NoCallback", "NoCallback",
     "The class has no `onReceive` (a receiver) or `run` (a runnable) of its own or of a class above it in the files: take the component "
     "out of the list."),
    ("bad list", "BadList", "The component list is not as `docs/command.md` says."),
    ("bad dex", "BadDex",
     "A DEX file is faulty, or of another version than 035. For `Signature` of old d8 files use `tools/reseal`; for `Version` build with a "
     "lower minSdkVersion."),
    ("bad link", "BadLink", "The DEX files are no one application: a class stands twice, or code stands where there must be none."),
    ("limit", "Limit", "The application is larger than the program's limits."),
    ("cannot read", "Unread", "A file could not be read."),
    ("usage", "Usage", "The words of the command line have no form."),
    ("", "NoVerdict", "The program gave no verdict."),
]


def answer_meaning(text):
    """The name of an answer that is no verdict, and what to do about it."""
    return next((name, what) for start, name, what in ANSWER if text.startswith(start))
