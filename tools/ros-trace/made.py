"""Makes the events that ros2_tracing records of two nodes, as the text of babeltrace and as a trace in CTF.

No ROS 2 was at hand. Names and fields of events are those of the tracepoints of tracetools (ROS 2 Iron and later), from
memory: a timer at 10 Hz has `talker` publish `/chatter`, `relay` publishes `/echo` of each, and `talker` takes that.
"""

from __future__ import annotations

import random
import struct
from dataclasses import dataclass, field
from pathlib import Path

MILLISECOND = 1_000_000
SECOND = 1_000_000_000
START = 1_700_000_000 * SECOND
PERIOD = 100 * MILLISECOND
HOST = "robot"


@dataclass(frozen=True)
class Made:
    """An event: a value is a number, an address or a text, by its type."""

    time: int
    name: str
    process: int
    fields: dict[str, object]


class Address(int):
    """A number that babeltrace prints in base 16."""


@dataclass
class Run:
    """What was made: the events in order, and by hand what a proposal has to have seen."""

    events: list[Made] = field(default_factory=list)
    ticks: list[int] = field(default_factory=list)
    relay_ages: list[int] = field(default_factory=list)
    talker_ages: list[int] = field(default_factory=list)

    def add(self, time: int, process: int, name: str, **fields: object) -> None:
        self.events.append(Made(time, f"ros2:{name}", process, fields))


TALKER, RELAY = 101, 202
# both processes have the same addresses, so that a handle alone says nothing
NODE, RMW_NODE, PUBLISHER, RMW_PUBLISHER, SUBSCRIPTION, RMW_SUBSCRIPTION = (
    Address(0x55550000 + 16 * number) for number in range(6)
)
OBJECT, TAKING, TIMER, TICKING, MESSAGE, TAKEN, LOGGER = (Address(0x7FFF0000 + 16 * number) for number in range(7))


def begin_publisher(run: Run, process: int, handles: tuple[int, int], topic: tuple[str, int]) -> None:
    fields = {"publisher_handle": handles[0], "node_handle": NODE, "rmw_publisher_handle": handles[1]}
    run.add(START + process, process, "rcl_publisher_init", **fields, topic_name=topic[0], queue_depth=topic[1])


def begin_subscription(run: Run, process: int, topic: tuple[str, int], symbol: str) -> None:
    at = START + process
    fields = {"subscription_handle": SUBSCRIPTION, "node_handle": NODE, "rmw_subscription_handle": RMW_SUBSCRIPTION}
    run.add(at, process, "rcl_subscription_init", **fields, topic_name=topic[0], queue_depth=topic[1])
    run.add(at, process, "rclcpp_subscription_init", subscription_handle=SUBSCRIPTION, subscription=OBJECT)
    run.add(at, process, "rclcpp_subscription_callback_added", subscription=OBJECT, callback=TAKING)
    run.add(at, process, "rclcpp_callback_register", callback=TAKING, symbol=symbol)


def begin_node(
    run: Run, process: int, name: str, namespace: str, publishes: tuple[str, int], takes: tuple[str, int]
) -> None:
    """The events with which a node with a publisher and a subscription begins, each with its topic and depth."""
    at = START + process
    run.add(at, process, "rcl_init", context_handle=Address(1), version="5.3.2")
    run.add(at, process, "rcl_node_init", node_handle=NODE, rmw_handle=RMW_NODE, node_name=name, namespace=namespace)
    begin_publisher(run, process, (LOGGER, Address(LOGGER + 1)), ("/rosout", 1000))
    begin_publisher(run, process, (PUBLISHER, RMW_PUBLISHER), publishes)
    begin_subscription(run, process, takes, f"{name}::on_message(std::shared_ptr<std_msgs::msg::String const>)")


def publish(run: Run, at: int, process: int) -> int:
    """The events of a write in its three layers, and the stamp that the sample gets."""
    run.add(at, process, "rclcpp_publish", message=MESSAGE)
    run.add(at + 1_000, process, "rcl_publish", publisher_handle=PUBLISHER, message=MESSAGE)
    run.add(
        at + 2_000, process, "rmw_publish", rmw_publisher_handle=RMW_PUBLISHER, message=MESSAGE, timestamp=at + 1_500
    )
    return at + 1_500


def take(run: Run, at: int, process: int, stamp: int) -> None:
    run.add(
        at,
        process,
        "rmw_take",
        rmw_subscription_handle=RMW_SUBSCRIPTION,
        message=TAKEN,
        source_timestamp=stamp,
        taken=1,
    )
    run.add(at + 100, process, "rcl_take", message=TAKEN)
    run.add(at + 200, process, "rclcpp_take", message=TAKEN)


def make(seed: int, count: int) -> Run:
    """`count` circles: a tick within 4 ms of its time, and delays of up to 9 ms, all drawn."""
    draw, run = random.Random(seed), Run()
    begin_node(run, TALKER, "talker", "/", ("/chatter", 7), ("/echo", 4))
    begin_node(run, RELAY, "relay", "/hall", ("/echo", 3), ("/chatter", 5))
    run.add(START + 900, TALKER, "rcl_timer_init", timer_handle=TIMER, period=PERIOD)
    run.add(START + 901, TALKER, "rclcpp_timer_callback_added", timer_handle=TIMER, callback=TICKING)
    run.add(START + 902, TALKER, "rclcpp_callback_register", callback=TICKING, symbol='talker::"tick"()')
    run.add(START + 903, TALKER, "rclcpp_timer_link_node", timer_handle=TIMER, node_handle=NODE)
    for number in range(count):
        wake = START + (number + 1) * PERIOD + draw.randrange(4 * MILLISECOND)
        run.add(wake, TALKER, "callback_start", callback=TICKING, is_intra_process=0)
        tick = wake + 10_000
        stamp = publish(run, tick, TALKER)
        run.ticks.append(tick)
        run.add(tick + 5_000, TALKER, "callback_end", callback=TICKING)
        taken = tick + 200_000 + draw.randrange(9 * MILLISECOND)
        run.relay_ages.append(taken - tick)
        take(run, taken, RELAY, stamp)
        run.add(taken + 300, RELAY, "callback_start", callback=TAKING, is_intra_process=0)
        stamp = publish(run, taken + 50_000, RELAY)
        run.add(taken + 60_000, RELAY, "callback_end", callback=TAKING)
        back = taken + 300_000 + draw.randrange(9 * MILLISECOND)
        run.talker_ages.append(back - taken - 50_000)
        take(run, back, TALKER, stamp)
        run.add(back + 300, TALKER, "callback_start", callback=TAKING, is_intra_process=0)
        run.add(back + 400, TALKER, "callback_end", callback=TAKING)
        # nothing was there the next time
        run.add(
            back + 500,
            TALKER,
            "rmw_take",
            rmw_subscription_handle=RMW_SUBSCRIPTION,
            message=TAKEN,
            source_timestamp=0,
            taken=0,
        )
    run.events.sort(key=lambda event: event.time)
    return run


# As text


def value_text(value: object) -> str:
    if isinstance(value, str):
        return '"' + value.replace("\\", "\\\\").replace('"', '\\"') + '"'
    return f"0x{value:X}" if isinstance(value, Address) else str(value)


def text_of(events: list[Made]) -> str:
    """What `babeltrace2 --clock-seconds` prints: the time, that since the last event, host, event, and groups."""
    lines, last = [], None
    for event in events:
        since = "?.?????????" if last is None else f"{(event.time - last) // SECOND}.{(event.time - last) % SECOND:09}"
        fields = ", ".join(f"{name} = {value_text(value)}" for name, value in event.fields.items())
        context = f'vpid = {event.process}, vtid = {event.process}, procname = "node"'
        time = f"{event.time // SECOND}.{event.time % SECOND:09}"
        lines.append(f"[{time}] (+{since}) {HOST} {event.name}: {{ cpu_id = 0 }}, {{ {context} }}, {{ {fields} }}\n")
        last = event.time
    return "".join(lines)


# As CTF 1.8

MAGIC = 0xC1FC1FC1
METADATA = """/* CTF 1.8 */
typealias integer { size = 32; align = 8; signed = false; } := uint32_t;
typealias integer { size = 64; align = 8; signed = false; } := uint64_t;
typealias integer { size = 64; align = 8; signed = false; base = 16; } := address_t;
trace {
  major = 1; minor = 8; byte_order = le;
  packet.header := struct { uint32_t magic; uint32_t stream_id; };
};
env { hostname = "robot"; domain = "ust"; tracer_name = "lttng-ust"; tracer_major = 2; tracer_minor = 13; };
clock { name = "monotonic"; freq = 1000000000; offset_s = 1600000000; offset = 0; };
typealias integer { size = 64; align = 8; signed = false; map = clock.monotonic.value; } := time_t;
stream {
  id = 0;
  packet.context := struct { uint32_t cpu_id; };
  event.header := struct { uint32_t id; time_t timestamp; };
  event.context := struct { uint32_t vpid; uint32_t vtid; string procname; };
};
"""
OFFSET = 1_600_000_000 * SECOND


def type_of(value: object) -> str:
    return "string" if isinstance(value, str) else "address_t" if isinstance(value, Address) else "uint64_t"


def write_ctf(events: list[Made], folder: Path) -> None:
    """Writes a trace with one stream of one packet. Fields of one name have one type in all events of a name."""
    kinds: dict[str, int] = {}
    metadata, stream = METADATA, bytearray(struct.pack("<III", MAGIC, 0, 0))
    for event in events:
        if event.name not in kinds:
            kinds[event.name] = len(kinds)
            fields = " ".join(f"{type_of(value)} _{name};" for name, value in event.fields.items())
            head = f'name = "{event.name}"; id = {kinds[event.name]}; stream_id = 0;'
            metadata += f"event {{ {head} fields := struct {{ {fields} }}; }};\n"
        stream += struct.pack("<IQII", kinds[event.name], event.time - OFFSET, event.process, event.process) + b"node\0"
        for value in event.fields.values():
            stream += value.encode() + b"\0" if isinstance(value, str) else struct.pack("<Q", value)
    folder.mkdir(parents=True)
    (folder / "metadata").write_text(metadata)
    (folder / "stream").write_bytes(stream)
