"""A plain model of the commands of a script, for checks of the program from outside. It shares no code with it."""
import reader


def names(text):
    return reader.path_of(text.encode())


class Model:
    """A namespace, and the time that a script has set."""

    def __init__(self, namespace=None):
        self.space = namespace or reader.Namespace()
        self.now = 0

    def copy(self):
        new = Model(self.space.copy())
        new.now = self.now
        return new

    def answer(self, line):
        """Does a line and gives its answer."""
        words = line.split(" ")
        if words[0] == "clock":
            self.now = int(words[1])
            return "ok"
        # Over directories that are all live.
        if words[0] in ("roll", "checkpoint", "restore"):
            return "ok"
        refused = getattr(self, words[0])(names(words[1]), *words[2:])
        return "refused " + refused if refused else "ok"

    def walk(self, path):
        for end in range(len(path)):
            node = self.space.nodes.get(path[:end])
            if node is None:
                return "not-found"
            if node["replication"] is not None:
                return "not-dir"

    def found(self, path):
        """Why nothing is at the path, or None and the node."""
        why = self.walk(path)
        node = None if why else self.space.nodes.get(path)
        return (why or (None if node else "not-found")), node

    def use(self, path):
        below = [node for at, node in self.space.nodes.items() if at[: len(path)] == path]
        return len(below), sum((node["replication"] or 0) * sum(b[2] for b in node["blocks"]) for node in below)

    def exceeds(self, above, more_names, more_space):
        for path in above:
            quotas = self.space.nodes[path]["quotas"]
            if quotas == (None, None):
                continue
            used = self.use(path)
            for quota, use, more in zip(quotas, used, (more_names, more_space)):
                if quota is not None and more > 0 and use + more > quota:
                    return True
        return False

    def make(self, path, replication):
        why = self.walk(path)
        if why:
            return why
        if path in self.space.nodes:
            return "exists"
        if replication is not None and not 1 <= replication <= 512:
            return "limit"
        if self.exceeds([path[:end] for end in range(len(path))], 1, 0):
            return "quota"
        parent = self.space.nodes[path[:-1]]
        inode = self.space.counters[0] + 1
        self.space.count(inode=inode)
        if replication is None:
            node = reader.directory(inode, b"hdfs", parent["group"], 0o755, self.now)
        else:
            node = reader.plain_file(inode, b"hdfs", parent["group"], 0o644, self.now, replication)
        self.space.nodes[path] = node
        parent["time"] = self.now

    def mkdir(self, path):
        return self.make(path, None)

    def create(self, path, replication):
        return self.make(path, int(replication))

    def block(self, path, length):
        why, node = self.open_file(path)
        if why:
            return why
        length = int(length)
        if not 1 <= length <= 1 << 40:
            return "limit"
        if self.exceeds([path[:end] for end in range(len(path))], 0, node["replication"] * length):
            return "quota"
        _, block, stamp = self.space.counters
        self.space.count(block=block + 1, stamp=stamp + 1)
        node["blocks"].append((block + 1, stamp + 1, length))

    def close(self, path):
        why, node = self.open_file(path)
        if why:
            return why
        node.update(open=False, time=self.now)

    def open_file(self, path):
        why, node = self.found(path)
        if not why and node["replication"] is None:
            why = "is-dir"
        if not why and not node["open"]:
            why = "closed"
        return why, node

    def delete(self, path):
        if not path:
            return "root"
        why, _ = self.found(path)
        if why:
            return why
        reader.remove(self.space, path, self.now)

    def rename(self, source, target):
        target = names(target)
        if not source or not target:
            return "root"
        why, _ = self.found(source)
        if why:
            return why
        if len(target) > len(source) and target[: len(source)] == source:
            return "under"
        why = self.walk(target)
        if why:
            return why
        if target in self.space.nodes:
            return "exists"
        above = [target[:end] for end in range(len(target)) if target[:end] != source[:end] or end >= len(source)]
        if self.exceeds(above, *self.use(source)):
            return "quota"
        reader.move(self.space, source, target, self.now)

    def chmod(self, path, mode):
        why, node = self.found(path)
        if why:
            return why
        node["mode"] = int(mode, 8)

    def chown(self, path, owner, group):
        why, node = self.found(path)
        if why:
            return why
        node.update(owner=owner.encode(), group=group.encode())

    def quota(self, path, name_quota, space_quota):
        why, node = self.found(path)
        if not why and node["replication"] is not None:
            why = "not-dir"
        if not why and name_quota == "0":
            why = "limit"
        if why:
            return why
        node["quotas"] = tuple(None if quota == "-" else int(quota) for quota in (name_quota, space_quota))

    def setrep(self, path, replication):
        why, node = self.found(path)
        if not why and node["replication"] is None:
            why = "is-dir"
        if why:
            return why
        replication = int(replication)
        if not 1 <= replication <= 512:
            return "limit"
        more = (replication - node["replication"]) * sum(block[2] for block in node["blocks"])
        if self.exceeds([path[:end] for end in range(len(path))], 0, more):
            return "quota"
        node["replication"] = replication


NAMES = ("a", "b", "logs", "tmp", "e9", "e10", "user,1", "part-00000")


def random_line(random, model):
    """A line of a script, mostly one that is done."""
    nodes = model.space.nodes
    directories = [path for path, node in nodes.items() if node["replication"] is None]
    files = [path for path, node in nodes.items() if node["replication"] is not None]
    text = lambda path: "/" + "/".join(name.decode() for name in path)
    parent = random.choice(directories)
    fresh = text(parent + (random.choice(NAMES).encode() + str(random.randrange(40)).encode(),))
    some = text(random.choice(files or directories))
    any_path = text(random.choice(list(nodes)))
    kind = random.choice(
        "mkdir mkdir create create create block block close delete rename chmod chown quota setrep clock".split()
    )
    if len(nodes) > 400:
        kind = "delete"
    return {
        "mkdir": f"mkdir {fresh}",
        "create": f"create {fresh} {random.choice([1, 2, 3, 3, 3, 0])}",
        "block": f"block {some} {random.choice([1, 50, 1000, 134217728])}",
        "close": f"close {some}",
        "delete": f"delete {any_path}",
        "rename": f"rename {any_path} {fresh}",
        "chmod": f"chmod {any_path} {random.randrange(0o1000):o}",
        "chown": f"chown {any_path} {random.choice(['hdfs', 'yarn'])} {random.choice(['supergroup', 'users'])}",
        "quota": f"quota {any_path} {random.choice(['-', '-', '400'])} {random.choice(['-', '-', '10000000000'])}",
        "setrep": f"setrep {some} {random.choice([1, 2, 5])}",
        "clock": f"clock {random.randrange(10**6)}",
    }[kind]
