"""A part of `test-capture`: a graph of ROS 2 with 23 nodes and 533 endpoints, as a robot with Nav2 has them. Run as a script it announces the graph in domain 7, for a
capture by hand: `bridge/cyclone/graph.py [SECONDS]`."""

import sys
import time
import tomllib

sys.dont_write_bytecode = True
from announcing import Announcing, Participant  # noqa: E402
from capturing import OTHERS, capture_all, has_endpoints, legal, matched  # noqa: E402
from testing import Skip  # noqa: E402

DOMAIN = 7
NODES, ENDPOINTS = 23, 533
# what is said where a list has no room for all of these
WRITERS, READERS = "the list of writers is full: 274 were heard", "the list of readers is full: 259 were heard"
# what each node has, and what each one with a life cycle has besides
PARAMETERS = ["describe_parameters", "get_parameter_types", "get_parameters", "list_parameters", "set_parameters", "set_parameters_atomically"]
LIFE_CYCLE = ["change_state", "get_state", "get_available_states", "get_available_transitions", "get_transition_graph"]
CYCLIC = ["map_server", "amcl", "controller_server", "planner_server", "behavior_server", "bt_navigator", "velocity_smoother", "waypoint_follower"]
PLAIN = ["robot_state_publisher", "joint_state_publisher", "gazebo", "lidar", "camera", "imu", "ekf", "rviz2", "teleop", "twist_mux", "lifecycle_manager_navigation",
         "lifecycle_manager_localization", "diagnostics", "battery", "docking"]
# topics, each with those that publish it and those that subscribe to it
TOPICS = [
    ("tf", "tf2_msgs::msg::dds_::TFMessage_", ["robot_state_publisher", "ekf", "amcl"],
     ["amcl", "controller_server", "planner_server", "behavior_server", "bt_navigator", "rviz2"]),
    ("tf_static", "tf2_msgs::msg::dds_::TFMessage_", ["robot_state_publisher"],
     ["amcl", "controller_server", "planner_server", "behavior_server", "bt_navigator", "rviz2"]),
    ("scan", "sensor_msgs::msg::dds_::LaserScan_", ["lidar"], ["amcl", "controller_server", "planner_server", "rviz2"]),
    ("imu", "sensor_msgs::msg::dds_::Imu_", ["imu"], ["ekf"]),
    ("image", "sensor_msgs::msg::dds_::Image_", ["camera"], ["rviz2", "docking"]),
    ("joint_states", "sensor_msgs::msg::dds_::JointState_", ["joint_state_publisher"], ["robot_state_publisher"]),
    ("odom", "nav_msgs::msg::dds_::Odometry_", ["gazebo"], ["ekf", "controller_server", "velocity_smoother", "bt_navigator"]),
    ("map", "nav_msgs::msg::dds_::OccupancyGrid_", ["map_server"], ["amcl", "planner_server", "rviz2"]),
    ("plan", "nav_msgs::msg::dds_::Path_", ["planner_server"], ["rviz2"]),
    ("cmd_vel_nav", "geometry_msgs::msg::dds_::Twist_", ["controller_server", "behavior_server"], ["velocity_smoother"]),
    ("cmd_vel_smoothed", "geometry_msgs::msg::dds_::Twist_", ["velocity_smoother"], ["twist_mux"]),
    ("cmd_vel_teleop", "geometry_msgs::msg::dds_::Twist_", ["teleop"], ["twist_mux"]),
    ("cmd_vel", "geometry_msgs::msg::dds_::Twist_", ["twist_mux"], ["gazebo"]),
    ("battery_state", "sensor_msgs::msg::dds_::BatteryState_", ["battery"], ["bt_navigator", "docking"]),
    ("diagnostics", "diagnostic_msgs::msg::dds_::DiagnosticArray_", ["lidar", "battery"], ["diagnostics"]),
]


def service(node, name):
    """The two endpoints of a node that serves."""
    called = "".join(word.capitalize() for word in name.split("_"))
    return [("reader", f"rq/{node}/{name}Request", f"rcl_interfaces::srv::dds_::{called}_Request_"),
            ("writer", f"rr/{node}/{name}Reply", f"rcl_interfaces::srv::dds_::{called}_Response_")]


def endpoints(node):
    """A kind, a topic and a type for each endpoint of a node."""
    found = [("writer", "ros_discovery_info", "rmw_dds_common::msg::dds_::ParticipantEntitiesInfo_"), ("reader", "ros_discovery_info", "rmw_dds_common::msg::dds_::ParticipantEntitiesInfo_"),
             ("writer", "rt/rosout", "rcl_interfaces::msg::dds_::Log_"), ("writer", "rt/parameter_events", "rcl_interfaces::msg::dds_::ParameterEvent_"),
             ("reader", "rt/parameter_events", "rcl_interfaces::msg::dds_::ParameterEvent_")]
    found += [one for name in PARAMETERS for one in service(node, name)]
    if node in CYCLIC:
        found += [one for name in LIFE_CYCLE for one in service(node, name)]
        found.append(("writer", f"rt/{node}/transition_event", "lifecycle_msgs::msg::dds_::TransitionEvent_"))
    for name, type_name, publish, subscribe in TOPICS:
        found += [("writer", f"rt/{name}", type_name)] * (node in publish) + [("reader", f"rt/{name}", type_name)] * (node in subscribe)
    return found


def graph():
    """A participant for each node. Types have no keys."""
    found = []
    for number, node in enumerate(CYCLIC + PLAIN):
        ends = [(kind, {"topic": topic.encode(), "type": type_name.encode(), "keyless": True}) for kind, topic, type_name in endpoints(node)]
        found.append(Participant(number, ends, node.encode()))
    return found


def listed(text):
    """A kind, a topic and a participant for each endpoint of a file."""
    lists = tomllib.loads(text)
    return sorted((kind[:-1], one["topic"], one["participant"]) for kind in ("writers", "readers") for one in lists.get(kind, []))


def announced(prefix):
    return sorted((kind, topic, node) for node in CYCLIC + PLAIN for kind, topic, _ in endpoints(node) if topic.startswith(prefix))


def has_more(version):
    """Whether a file of this version may have more than 256 topics."""
    topics = ", ".join(f'{{ name = "t{at}", type = "T", keys = ["k"] }}' for at in range(257))
    return "TooMany" not in matched(f"version = {version}\ntopics = [{topics}]\n").stderr


def whole_graph(room, runs):
    is_all = len(CYCLIC + PLAIN) == NODES and len(announced("")) == ENDPOINTS
    yield "graph: 23 nodes and 533 endpoints", [] if is_all else [f"{len(CYCLIC + PLAIN)} nodes, {len(announced(''))} endpoints"]
    with Announcing(DOMAIN, graph()):
        words = ["--domain", DOMAIN, "--all"]
        count = len(announced("rt/"))
        texts = [capture_all(has_endpoints(count), 5, *words, "--topics", "rt/*", assume="ros2", CYCLONEDDS_URI=OTHERS) for _ in range(2)]
        alone = capture_all(has_endpoints(ENDPOINTS // 4), 5, "--domain", DOMAIN, assume="ros2", CYCLONEDDS_URI=OTHERS)
        is_heard = lambda text, said: (WRITERS in said and READERS in said) or has_endpoints(ENDPOINTS)(text, said)
        full = capture_all(is_heard, 5, *words, "--version", 4, assume="ros2", CYCLONEDDS_URI=OTHERS)
    (text, said, status), again = texts
    yield "graph: all rt/ topics", legal(text) + ([] if status == 0 and not said and listed(text) == announced("rt/") else [said, str(len(listed(text)))])
    yield "graph: the same bytes twice", [] if text == again[0] else ["they differ"]
    named = [one for one in announced("") if not any(one[1].endswith(f"/{name}{end}") for name in PARAMETERS for end in ("Request", "Reply"))]
    named = [one for one in named if one[1] not in ("rt/rosout", "rt/parameter_events")]
    yield "graph: without what each node has", legal(alone[0]) + ([] if alone[2] == 0 and listed(alone[0]) == named else [alone[1], str(len(listed(alone[0])))])
    yield from in_version_4(*full)


def in_version_4(text, said, status):
    """All of it where a file of version 4 has room for that, and else what it says of what has none."""
    if has_more(4):
        yield "graph: whole in version 4", legal(text) + ([] if status == 0 and listed(text) == announced("") else [said, str(len(listed(text)))])
        return
    yield "graph: whole in version 4", Skip("a file of version 4 has at most 256 topics, writers and readers, as one of version 3")
    is_told = WRITERS in said and READERS in said and text.startswith("# INCOMPLETE: ") and "\nversion = 4\n" in text
    yield "graph: cut in version 4", legal(text) + ([] if status == 1 and is_told else [said, str(status)])


if __name__ == "__main__":
    with Announcing(DOMAIN, graph()):
        time.sleep(float(sys.argv[1]) if len(sys.argv) > 1 else 60)
