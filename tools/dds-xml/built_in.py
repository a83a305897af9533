"""What is known of the profiles that RTI Connext has built in, whose values stand in no file of a user.

Each fact is documented in RTI Connext's C API reference, module "Built-in Qos Profiles", under the constant beside it,
and in the User's Manual, chapter "Configuring QoS with XML", section "Built-in QoS Profiles"; the values themselves are
in NDDSHOME/resource/xml/BuiltinProfiles.documentationONLY.xml. Neither was at hand, so this is from memory, and what
wasn't remembered for certain isn't here: versions of the baseline, large data, low latency, high throughput, patterns,
and snippets of features and protocols. Only policies that a deployment has are listed. Each holds for writers and
readers alike.
"""

from __future__ import annotations

from dataclasses import dataclass, field

from reading import Element


@dataclass(frozen=True)
class Facts:
    """The profile of the same library that one is based on, and the kinds of policies that it sets."""

    base: str | None = None
    kinds: dict[str, str] = field(default_factory=dict)


RELIABLE = {"reliability": "RELIABLE_RELIABILITY_QOS"}
BEST_EFFORT = {"reliability": "BEST_EFFORT_RELIABILITY_QOS"}
KEEP_ALL = {"history": "KEEP_ALL_HISTORY_QOS"}
KEEP_LAST = {"history": "KEEP_LAST_HISTORY_QOS"}

PROFILES = {
    # PROFILE_BASELINE_ROOT: the values that Connext has by default, which for these policies are the standard's
    "Baseline.Root": Facts(),
    # PROFILE_GENERIC_COMMON: the base of the generic ones, which sets up participants alone
    "Generic.Common": Facts(),
    # PROFILE_GENERIC_STRICT_RELIABLE: "Enables strict reliability", by RELIABLE and KEEP_ALL
    "Generic.StrictReliable": Facts("Generic.Common", RELIABLE | KEEP_ALL),
    # PROFILE_GENERIC_KEEP_LAST_RELIABLE: "Enables keep-last reliability", by RELIABLE and KEEP_LAST
    "Generic.KeepLastReliable": Facts("Generic.Common", RELIABLE | KEEP_LAST),
    # PROFILE_GENERIC_BEST_EFFORT: "Enables best-effort reliability"
    "Generic.BestEffort": Facts("Generic.Common", BEST_EFFORT),
    # PROFILE_GENERIC_KEEP_LAST_RELIABLE_TRANSIENT_LOCAL, .._TRANSIENT and .._PERSISTENT: that with these durabilities
    "Generic.KeepLastReliable.TransientLocal": Facts(
        "Generic.KeepLastReliable", {"durability": "TRANSIENT_LOCAL_DURABILITY_QOS"}
    ),
    "Generic.KeepLastReliable.Transient": Facts("Generic.KeepLastReliable", {"durability": "TRANSIENT_DURABILITY_QOS"}),
    "Generic.KeepLastReliable.Persistent": Facts(
        "Generic.KeepLastReliable", {"durability": "PERSISTENT_DURABILITY_QOS"}
    ),
}
SNIPPETS = {
    # SNIPPET_QOS_POLICY_RELIABILITY_RELIABLE and .._BEST_EFFORT
    "QosPolicy.Reliability.Reliable": Facts(None, RELIABLE),
    "QosPolicy.Reliability.BestEffort": Facts(None, BEST_EFFORT),
    # SNIPPET_QOS_POLICY_HISTORY_KEEP_LAST_1 and .._KEEP_ALL
    "QosPolicy.History.KeepLast_1": Facts(None, KEEP_LAST | {"depth": "1"}),
    "QosPolicy.History.KeepAll": Facts(None, KEEP_ALL),
}
# Connext 5 had the generic profiles in BuiltinQosLibExp, and later versions have them in both.
LIBRARIES = {"BuiltinQosLib": PROFILES, "BuiltinQosLibExp": PROFILES, "BuiltinQosSnippetLib": SNIPPETS}


def built_in_profile(library: str, name: str) -> Element | None:
    """A profile as it would stand in a file, or `None` where its values aren't known."""
    facts = LIBRARIES.get(library, {}).get(name)
    if facts is None:
        return None
    profile = Element("qos_profile", {"name": name} | ({"base_name": facts.base} if facts.base else {}), 0, None)
    for tag in ("datawriter_qos", "datareader_qos") if facts.kinds else ():
        entity = add_element(profile, tag)
        for policy, kind in facts.kinds.items():
            if policy == "depth":
                add_element(entity.children[-1], "depth", kind)
            else:
                add_element(add_element(entity, policy), "kind", kind)
    return profile


def add_element(parent: Element, tag: str, text: str = "") -> Element:
    element = Element(tag, {}, 0, parent, text=text)
    parent.children.append(element)
    return element
