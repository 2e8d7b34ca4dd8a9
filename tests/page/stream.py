"""What a stream's tables come to, reckoned from its lines alone, in another language than the program's: tests compare a page with it."""
import json

SPAWN = "spawn"


def busy_until(row, now):
    running = now - row["last_started"] if row["polling"] else 0
    return row["busy"] + max(0, running)


def waited(row):
    """How long a task waited until its polls started: counted from each wait's begin, where its row does so, and otherwise from the last wake."""
    return row["sched"][1] if isinstance(row["sched"], list) else row["sched"]


def waited_until(row, now):
    if not row["scheduled"] or row["polling"]:
        return waited(row)
    since = max(row["created"], row["last_wake"] or 0, row["last_ended"] or 0)
    return waited(row) + max(0, now - since)


class Tables:
    """The tasks, resources and operations after a stream's last whole line."""

    def __init__(self, path):
        self.tasks, self.resources, self.ops, self.counts = {}, {}, {}, {}
        self.now, self.lines, self.dropped, self.gone, self.first = 0, 0, [0, 0, 0], 0, 0
        with open(path, encoding="ascii") as file:
            for text in file:
                if text.endswith("\n"):
                    self.take(json.loads(text))

    def take(self, line):
        before = set(self.tasks)
        if line["snapshot"]:
            self.tasks, self.resources, self.ops, self.counts = {}, {}, {}, {}
        for kind, stats, table in (
            ("tasks", "task_stats", self.tasks),
            ("resources", "resource_stats", self.resources),
            ("ops", "op_stats", self.ops),
        ):
            for gone in line.get("gone_" + kind, []):
                table.pop(gone, None)
            for info in line["new_" + kind]:
                table[info["id"]] = {"info": info}
            for row in line[stats]:
                table[row["id"]]["row"] = row
        for resource, ready, pending in line["poll_counts"]:
            self.counts[resource] = (ready, pending)
        self.gone += len(before - set(self.tasks))
        self.now, self.dropped = line["now"], line["dropped"]
        self.first = self.first if self.lines else self.now
        self.lines += 1

    def warnings(self, percent=50, limit=10**9):
        """The warnings of each task, by the defaults of `view`."""
        for number, task in self.tasks.items():
            row = task["row"]
            if task["info"]["kind"] != SPAWN:
                continue
            if row["wakes"] > 0 and percent * row["wakes"] < 100 * row["self_wakes"]:
                yield number, "self-wakes"
            idle = row["dropped"] is None and not row["polling"] and not row["scheduled"]
            if idle and row["clones"] == row["drops"]:
                yield number, "lost-waker"
            if row["polling"] and row["polls"] == 1 and self.now - row["last_started"] >= limit:
                yield number, "never-yielded"
