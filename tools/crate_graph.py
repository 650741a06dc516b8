#!/usr/bin/env python3
"""Draws the crates and what each stands on, from crates.txt, as a Mermaid graph.

An arrow from a crate to another says that the first stands on the second. An arrow that others imply is left out.
"""
import pathlib

ROOT = pathlib.Path(__file__).resolve().parent.parent

# The floors of docs/ARCHITECTURE.md, the highest first.
FLOORS = [
    ("programs", ["sync_cli"]),
    ("tests", ["script_tests", "plan_tests", "transition_tests", "staging_tests", "request_tests", "session_tests", "text_tests", "scan_tests", "roots_tests", "link_tests", "ignore_tests", "tree_tests", "word_tests", "stream_tests", "disk_tests", "edge_tests", "agent_tests"]),
    ("runs", ["script_engine"]),
    ("cycles", ["scan_cache", "scan_core", "scan_laws", "frame_text", "reply_laws", "request_laws", "ancestor_store", "transition_plan", "transition_laws", "cycle_law", "cycle_core", "stage_core", "session_table", "session_control", "agent_proto", "plan_laws", "reconcile"]),
    ("roots", ["mem_roots", "root_laws"]),
    ("models", ["mode_rules", "roots_api", "ignore_rules", "ignore_glob", "entry_tree", "sync_path", "reply_text", "request_text", "command_words", "line_words"]),
    ("streams", ["forward_core", "mux_link", "mux_core", "mux_frames"]),
    ("edges", ["outside_io", "workload", "frame_journal", "disk_model", "worker_pool", "history_cell"]),
    ("base", ["fault_count", "finite_maps"]),
]


def crates():
    """Each crate with the crates of this repository that it names, in the order of crates.txt."""
    rows = {}
    for line in (ROOT / "crates.txt").read_text().splitlines():
        head, colon, behind = line.partition(":")
        if colon and not line.startswith("#"):
            rows[head.split()[0]] = behind.split()
    return {name: [other for other in others if other in rows] for name, others in rows.items()}


def below(rows, name):
    """All that a crate stands on, at any depth."""
    found = set()
    for other in rows[name]:
        found |= {other} | below(rows, other)
    return found


def direct(rows, name):
    """The crates that it names and that no other of them stands on."""
    return [other for other in rows[name] if not any(other in below(rows, third) for third in rows[name])]


def floors():
    """The floors as docs/ARCHITECTURE.md shows them, a line each."""
    return "\n".join(f"{floor:<11}{' · '.join(names)}" for floor, names in FLOORS)


def graph():
    rows = crates()
    lines = ["graph TD"]
    for floor, names in FLOORS:
        lines.append(f"  subgraph {floor}")
        lines += [f"    {name}" for name in names if name in rows]
        lines.append("  end")
    lines += [f"  {name} --> {other}" for name in rows for other in direct(rows, name)]
    return "\n".join(lines)


def problems():
    """Crates without a floor, or on two, and a crate that stands on a higher floor."""
    rows = crates()
    placed = [name for _, names in FLOORS for name in names]
    height = {name: -at for at, (_, names) in enumerate(FLOORS) for name in names}
    found = [f"{name} has no floor" for name in rows if name not in placed]
    found += [f"{name} isn't in crates.txt" for name in placed if name not in rows]
    for name in rows:
        for other in rows[name]:
            if height.get(other, -99) > height.get(name, 99):
                found.append(f"{name} stands on {other}, which is on a higher floor")
    return found


if __name__ == "__main__":
    print(graph())
