"""Good and nearly good parts of a trace line."""

TYPES = [b"TB_CFG_PKG_" + name for name in (
    b"READ", b"WRITE", b"ERROR", b"NOTIFY_ACK", b"EVENT", b"XDOMAIN_REQ", b"XDOMAIN_RESP",
    b"ICM_EVENT", b"ICM_CMD", b"ICM_RESP")]
OTHER_TYPES = [
    b"TB_CFG_PKG_OVERRIDE", b"TB_CFG_PKG_PREPARE_TO_SLEEP", b"TB_CFG_PKG_", b"TB_CFG_PKG_READ_",
    b"tb_cfg_pkg_read", b"TB_CFG_PKG_REA", b"XTB_CFG_PKG_READ", b"[TB_CFG_PKG_READ]",
    b"[TB_CFG_PKG_ERROR]", b"[ TB_CFG_PKG_READ]", b"READ", b"0", b"t", b"TB_CFG_PKG_XDOMAIN",
    b"TB_CFG_PKG_ICM_EVENT_", b"TB_CFG_PKG_EVENT2", b"_TB_CFG_PKG_EVENT"]
FUNCTIONS = [b"tb_tx", b"tb_rx", b"tb_event"]
OTHER_FUNCTIONS = [b"f", b"_", b"9", b"tb_tx_", b"TB_TX", b"tb_rxx", b"xtb_tx", b"tb", b"0_a"]
TASKS = [
    b"fwd", b"kworker/u8:3", b"kworker/0:1H", b"irq/16-mei_me", b"systemd-udevd", b"a-1", b"<...>",
    b"bolt.d", b"-a", b"--", b"a--", b"x[001]", b"1.2:", b"#", b"swapper/0", b"t=1"]
FLAGS = [b"d..1.", b".....", b"d.h2.", b"....1..", b"", b"[x]", b"1.5"]

# Keys of the payload with how they read: decimal or hex, and bits.
NUMBERS = {
    b"size": ("decimal", 16), b"domain": ("decimal", 32), b"route": ("hex", 64),
    b"offset": ("hex", 16), b"error": ("hex", 8), b"len": ("decimal", 16),
    b"port": ("decimal", 8), b"config": ("hex", 8), b"seq": ("decimal", 8),
    b"unplug": ("hex", 8), b"dropped": ("decimal", 8)}
REQUIRED = (b"type", b"size", b"domain", b"route", b"data")
OPTIONAL = tuple(key for key in NUMBERS if key not in REQUIRED)
# Events with a name, with none, and those at the ends of their ranges.
EVENTS = list(range(0, 41)) + [63, 64, 127, 128, 254, 255]


def number(seed, key):
    """A value of the key as the kernel prints it."""
    form, bits = NUMBERS[key]
    value = seed.next() % (1 << seed.within(1, bits))
    if key == b"error":
        value = seed.pick(EVENTS)
    if key in (b"dropped", b"unplug"):
        value = seed.below(3)
    if form == "hex":
        return b"0x%x" % value
    return b"%d" % value


def dwords(seed, count):
    return b"[" + b", ".join(b"0x%08x" % (seed.next() >> 32) for _ in range(count)) + b"]"


def header(seed):
    task = seed.pick(TASKS)
    time = b"%d.%06d" % (seed.below(100_000), seed.below(1_000_000))
    return b"%s%s-%d [%03d] %s %s: %s" % (
        b" " * seed.below(4), task, seed.below(100_000), seed.below(64), seed.pick(FLAGS), time,
        seed.pick(FUNCTIONS))


def pairs(seed, optional=None):
    """The payload's pairs in order, as a dictionary."""
    found = {b"type": seed.pick(TYPES), b"size": number(seed, b"size")}
    for key in (b"dropped", b"domain", b"route"):
        found[key] = number(seed, key)
    if optional is None:
        optional = [key for key in OPTIONAL if not seed.one_in(3)]
    for key in optional:
        found[key] = number(seed, key)
    found[b"data"] = dwords(seed, seed.within(1, 12))
    return found


def joined(items, between=b", "):
    """Pairs one after the other; a key may stand twice."""
    return between.join(key + b"=" + value for key, value in items)


def payload(found, between=b", "):
    return joined(found.items(), between)


def ended(seed, text):
    """With a newline or without."""
    return text + (b"\n" if seed.below(2) else b"")


def line(seed, head=None, found=None, between=b", "):
    head = header(seed) if head is None else head
    found = pairs(seed) if found is None else found
    return ended(seed, head + b": " + payload(found, between))
