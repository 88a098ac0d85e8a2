"""What the numbers of an answer are called: methods by dexdump's listing of the files, components by the list."""
import tomllib

from dex_listing import methods
from verdicts import Unreadable

# The callbacks of each kind by the number of the lifecycle's edge, and its states by their numbers.
EDGES = {
    "activity": ("onCreate", "onStart", "onDestroy", "onResume", "onStop", "onPause", "onResume", "onStop", "onRestart", "onDestroy", "onStart"),
    "service": ("onCreate", "onStartCommand", "onStart", "onBind", "onUnbind", "onRebind", "onDestroy"),
    "receiver": ("onReceive",),
    "runnable": ("run",),
}
STATES = {
    "activity": ("not created", "created", "started", "resumed", "paused", "stopped", "restarted"),
    "service": ("not created", "created"),
    "receiver": ("at rest",),
    "runnable": ("at rest",),
}


class Names:
    """Without files methods stay numbers, and without a list most components do."""

    def __init__(self, files, list_name, answer):
        self.methods, self.parents = {}, {}
        self.components = read_list(list_name) if list_name else []
        wanted = {body.method for report in answer.reports for body in report.bodies}
        wanted |= {answer.refusal.method} if answer.refusal else set()
        callbacks = {report.callback.rpartition("->")[2] for report in answer.reports}
        for method in methods(files):
            self.parents[method.owner.name] = method.owner.parent
            if method.number in wanted or method.name in callbacks or method.touches_lock():
                self.methods[method.number] = method
        missing = wanted - set(self.methods)
        if files and missing:
            raise Unreadable(f"method {min(missing)} is in none of these DEX files: name those that verify read, in its order")

    def method(self, number):
        method = self.methods.get(number)
        return method.shown() if method else f"method {number}"

    def row(self, number, pc):
        """An instruction as dexdump lists it, or None."""
        method = self.methods.get(number)
        return method.rows.get(pc) if method else None

    def text(self, number, pc):
        """An instruction's text, or none."""
        row = self.row(number, pc)
        return row.text.rsplit(" // ", 1)[0] if row else ""

    def is_below(self, owner, above):
        """Whether a class is another one, or stands below it in the files."""
        passed = set()
        while owner != above and owner in self.parents and owner not in passed:
            passed.add(owner)
            owner = self.parents[owner]
        return owner == above

    def found(self, callback):
        """The method that a callback is, in its class or in the nearest one above it; or None."""
        owner, _, name = callback.rpartition("->")
        named = {}
        for method in self.methods.values():
            named.setdefault((method.owner.name, method.name), method)
        passed = set()
        while (owner, name) not in named and owner in self.parents and owner not in passed:
            passed.add(owner)
            owner = self.parents[owner]
        return named.get((owner, name))

    def known(self, report, component):
        """The kind and the class of a component; the class alone where only the report's head tells it."""
        if component < len(self.components):
            return self.components[component]
        is_last = report.exit and component == report.exit.component
        return None, report.callback.rpartition("->")[0] if is_last else None

    def component(self, report, component):
        kind, name = self.known(report, component)
        return f"{kind} {name}" if kind else name or f"component {component}"

    def callback(self, report, step):
        """The callback of a step, as a component's class and the callback's name where these are known."""
        kind, name = self.known(report, step.component)
        if kind and step.edge < len(EDGES[kind]):
            return f"{name}->{EDGES[kind][step.edge]}"
        if step.is_end:
            return report.callback
        if step.body is not None:
            return self.method(report.bodies[step.body].method)
        return f"edge {step.edge} of {self.component(report, step.component)}"

    def state(self, report, step):
        """The state in which the component was before a step."""
        kind, _ = self.known(report, step.component)
        return STATES[kind][step.state] if kind and step.state < len(STATES[kind]) else f"in state {step.state}"


def read_list(name):
    """The kind and the class of each component of a list."""
    try:
        with open(name, "rb") as file:
            rows = tomllib.load(file).get("component", [])
        found = [(row["kind"], row["class"]) for row in rows]
    except OSError as fault:
        raise Unreadable(f"{name} cannot be read: {fault.strerror}") from fault
    except (ValueError, KeyError, TypeError, AttributeError) as fault:
        raise Unreadable(f"{name} is no component list: {fault}") from fault
    for kind, _ in found:
        if kind not in EDGES:
            raise Unreadable(f"{name} is no component list: the kind {kind!r}")
    return found
