#!/usr/bin/env python3
"""A framework that leaves its offers unanswered doesn't hold an agent for ever: with `--offer-seconds` they are declined for it."""
import time

from cluster import Folder, Framework, Server, amounts, check

SECONDS = 3
TOTAL = {"cpus": 4, "mem": 4096}


def offered_to(framework, seconds):
    """What the next offer is of that comes in so many seconds; None where none comes."""
    event = framework.next("OFFERS", seconds=seconds)
    return event and [amounts(it["resources"]) for it in event["offers"]["offers"]]


def try_without(folder):
    """Without the option the other framework gets nothing."""
    with Server(folder, "--task-seconds", "0") as server:
        mute = Framework(server.port, role="mute")
        check(offered_to(mute, 10) == [TOTAL], "the whole agent is offered to the first framework")
        other = Framework(server.port, role="other")
        got = offered_to(other, 2 * SECONDS + 2)
        check(got is None, f"nothing is offered to the other framework, which got {got}")


def try_with(folder):
    """With it the other one gets the whole agent in time, and the first one nothing until its filter is over."""
    with Server(folder, "--task-seconds", "0", "--offer-seconds", str(SECONDS)) as server:
        mute = Framework(server.port, role="mute")
        kept = mute.next_offer(TOTAL)
        began = time.monotonic()
        other = Framework(server.port, role="other")
        offer = other.next_offer(TOTAL)
        took = time.monotonic() - began
        # The offer may be seen a moment before its framework reads it, or a second after it was made; a look, and a round, come once a second.
        check(SECONDS - 1 <= took <= SECONDS + 5, f"the offer is declined after {took:.1f} s")
        other.accept(offer, [("task", {"cpus": 1, "mem": 1024})], refuse_seconds=600)
        check(other.next_state() == "TASK_RUNNING", "the task of the other framework runs")
        # What it left is offered to the first one, but not before its filter is over.
        rest = {"cpus": 3, "mem": 3072}
        check(mute.next_offer(rest), "what is left is offered to the first framework")
        waited = time.monotonic() - began
        # (A DECLINE counts from the last Tick, up to a second ago, and the round that offers what it had comes up to a second later.)
        check(waited >= took + SECONDS - 2, f"it is offered to the first framework {waited - took:.1f} s after the other one's offer")
        # Its first offer is gone: it isn't told so, and an ACCEPT of it launches nothing.
        check(mute.next("RESCIND", seconds=0.1) is None, "no RESCIND comes")
        mute.accept(kept, [("late", {"cpus": 1})])
        check(mute.next_state() == "TASK_LOST", "a task on the offer that was declined is lost")
        return took


def main():
    with Folder({"a1": TOTAL}) as folder:
        took = try_with(folder)
    with Folder({"a1": TOTAL}) as folder:
        try_without(folder)
    print(f"an offer that is left unanswered for {SECONDS} s goes to another framework after {took:.1f} s, and without the option to none")


main()
