"""The service for a ground system, over UDP as cFS's ci_lab and to_lab have it.

    cfetbl serve [OPTION..]

A datagram that comes is a command packet, and each event, housekeeping and registry packet that is sent is a datagram to the
ground. A notice goes to the owner of its table alone, with the answer to the command, which standard output tells as
`cfetbl play --show` does. Applications call by lines of session text: those of a script, which are played as it starts, and those
that come over a local socket, where the lines of each answer are followed by an empty one. `file` lines uplink files, and `time`
lines set the time. The store file is cds.store of the working folder, as it is for `cfetbl play`.

    --cfe-layout            as cFE's table task: its layouts, events, sequence counts and time (docs/reference/cfe-packets.md); no checksum is looked
                            at, and datagrams with other message ids than its own are nobody's
    --big-endian            numbers there begin with their high byte
    --debug-events          sends events of type DEBUG there too, which cFE leaves out until they are enabled
    --event-ids HEADER      takes the numbers of events there from your cfe_tbl_eventids.h
    --any-checksum          takes a command whatever its checksum is
    --listen ADDRESS        takes commands at this address; 127.0.0.1 without it, which other machines don't reach
    --command-port NUMBER   and at this port; 1234 without it, and any free one for 0
    --to ADDRESS            sends telemetry to this address; 127.0.0.1 without it
    --telemetry-port NUMBER and to this port; 1235 without it
    --socket PATH           takes lines over a local socket, which is made here
    --files DIR             this folder is /cf for the ground: LOAD reads there and DUMP writes there; and `from FILE` in lines takes
                            the files below it; without it none
    --housekeeping SECONDS  requests housekeeping every so many seconds, as a scheduler does
    --manage SECONDS        has owners manage tables for which something is pending, as often
    --app LIBRARY           has images judged by the validation functions of your application, which are in this shared library:
                            share/doc/cfetbl/examples/checker/app.c shows how it is made, and cfetbl_app.h says it. Tables are
                            registered with the numbers that it gives them. A function that crashes refuses its image, which is told
    --app-limit SECONDS     how long a function may take, and refuses its image then; 1 without it
    --script FILE           plays the lines of a session as text before all else
    --quiet                 tells no answers on standard output, which takes less time
    --clock                 sets the time to that of this system, in seconds since 1980
    --store FILE            keeps the Critical Data Store in FILE and not in cds.store; none is a fresh store, which is thrown
                            away at the end
    --durable               syncs the store file after each write, so that what a copy has completed outlives a power cut

It serves until it is interrupted or ended by a signal, or its program has ended. Its program keeps no history, so that it takes no
more memory for a million requests than for ten. Senders aren't authenticated: whoever reaches the address may send commands. Of
callers there are 64 at most: for a further one that goes which was silent for the longest, and one goes that doesn't take its answers for 10 s. A
packet that can't be sent is told with the address, and is lost; service goes on.

Exit status: that of the run, or of its program where that ended by itself, 137 where it was killed; 2 for wrong use, where an
address can't be taken, where a line of the script is wrong, or where the library of --app can't be used; 4 where a write fails; 125 without a program; 128 and the number
of the signal that ends it, where what was under way took more than 3 s and was broken off.
"""
import argparse
import contextlib
import gc
import os

from tblkit import cfe, cfe_events, clock, files, folders, ground, links, live, names, programs, server, stopping, stores, text
from tblkit.streams import BY_SIGNAL, WRONG_USE, drop_output, fail, opened, say

TOOL, HERE = "cfetbl serve", "127.0.0.1"
OF_CFE = ("--big-endian", "--debug-events", "--event-ids")
# The least that may be between two turns of what is done again and again, and the least and the most that a function of --app may take, in
# seconds.
SHORTEST, LEAST_LIMIT, MOST_LIMIT = 0.01, 0.001, 1000


def seconds(word) -> float:
    """How many seconds go by between two turns."""
    number = float(word)
    if not SHORTEST <= number < 1e6:
        raise argparse.ArgumentTypeError(f"{word} isn't {SHORTEST} seconds or more")
    return number


def limit(word) -> float:
    """How many seconds a validation function may take."""
    number = float(word)
    if not LEAST_LIMIT <= number <= MOST_LIMIT:
        raise argparse.ArgumentTypeError(f"{word} isn't from {LEAST_LIMIT} to {MOST_LIMIT} seconds")
    return number


def add_arguments(parser) -> None:
    for option in ("--cfe-layout", "--big-endian", "--debug-events", "--any-checksum", "--quiet", "--clock"):
        parser.add_argument(option, action="store_true")
    for option in ("--housekeeping", "--manage"):
        parser.add_argument(option, type=seconds, metavar="SECONDS")
    parser.add_argument("--event-ids", metavar="HEADER")
    parser.add_argument("--app", metavar="LIBRARY")
    parser.add_argument("--app-limit", type=limit, metavar="SECONDS")
    for option, usual in (("--listen", HERE), ("--to", HERE), ("--socket", None), ("--files", None), ("--script", None)):
        parser.add_argument(option, default=usual)
    for option, port in (("--command-port", server.COMMAND_PORT), ("--telemetry-port", server.TELEMETRY_PORT)):
        parser.add_argument(option, type=int, choices=range(65_536), metavar="NUMBER", default=port)
    stores.add_written(parser)


def look(chosen, parser) -> None:
    """Looks at the words before anything is served."""
    for option, is_given in zip(OF_CFE, (chosen.big_endian, chosen.debug_events, chosen.event_ids)):
        if is_given and not chosen.cfe_layout:
            parser.error(f"{option} is of --cfe-layout")
    if chosen.app_limit and chosen.app is None:
        parser.error("--app-limit is of --app")
    if chosen.files is not None and not os.path.isdir(chosen.files):
        parser.error("--files takes a folder")


def link(chosen) -> links.Cfe | links.Plain:
    """How the ground is spoken to."""
    if not chosen.cfe_layout:
        return links.Plain(chosen.any_checksum)
    order = cfe.BIG if chosen.big_endian else cfe.LITTLE
    try:
        sender = cfe.Sender(order, cfe_events.numbers_of(chosen.event_ids), chosen.debug_events)
    except cfe_events.WrongHeader as wrong:
        fail(TOOL, str(wrong), WRONG_USE)
    return links.Cfe(sender, order)


def time_of(chosen) -> clock.RunningClock | clock.SystemClock | None:
    """The time that the service goes by; None where only `time` lines set it."""
    if chosen.clock:
        return clock.SystemClock()
    return clock.RunningClock() if chosen.cfe_layout else None


def tell(lines) -> None:
    """Writes the lines of an answer."""
    print("".join(f"{it}\n" for it in lines), end="", flush=True)


def note(words) -> None:
    say(f"{TOOL}: {words}")


def play_script(service, name, stop) -> None:
    """Plays the lines of a script."""
    with opened(name) as lines:
        for number, line in enumerate(lines, 1):
            if service.is_over or stop.is_asked:
                return
            try:
                service.line(line.decode("utf-8", "replace").removeprefix("\ufeff"), text.folder_of(name))
            except server.Refused as refused:
                fail(TOOL, f"{name}, line {number}: {refused}", WRONG_USE)


def started(chosen, closing) -> live.Running:
    """The run, once its program is ready, or has ended instead."""
    opening, word = stores.opening(TOOL, chosen, closing), "serve"
    if chosen.app is not None:
        opening, word = [*opening, "--app", chosen.app], "serve-app"
        opening += ["--app-limit", f"{chosen.app_limit:.3f}"] if chosen.app_limit else []
    try:
        running = live.Running(opening=opening, word=word)
    except programs.NoProgram as none:
        fail(TOOL, str(none), programs.NO_PROGRAM)
    closing.callback(running.kill)
    if not running.is_ready():
        running.finish()
    return running


def serve(chosen, running, made, stop) -> None:
    """Serves until a signal comes or the run is over."""
    names.rows()
    mounted = folders.Mounted(chosen.files, files.MOST_CONTENTS) if chosen.files else None
    service = server.Service(running, made.send, None if chosen.quiet else tell, note, link(chosen), time_of(chosen), mounted)
    for each, work in ((chosen.housekeeping, service.housekeeping), (chosen.manage, service.manage)):
        if each:
            made.every(each, work)
    if chosen.script:
        play_script(service, chosen.script, stop)
    if not service.is_over:
        note("commands to {}:{}, telemetry to {}:{}".format(*made.address, chosen.to, chosen.telemetry_port))
    # The garbage collector needn't look at what stands by now each time.
    gc.freeze()
    made.serve(service, stop)


def ended(chosen, running) -> int:
    """Ends the run: its status, after the line of its end, or why there is none."""
    status = running.finish()
    if not running.failure():
        tell([running.end_line()])
    elif chosen.app is None or status != WRONG_USE:
        # (a library that can't be used is told by the program)
        note(running.failure())
    return status


def main(chosen, parser) -> int:
    look(chosen, parser)
    with contextlib.ExitStack() as closing:
        stop = stopping.Stop(closing)
        try:
            made = server.Server(closing, (chosen.listen, chosen.command_port), (chosen.to, chosen.telemetry_port), note,
                                 chosen.socket, chosen.files)
            running = started(chosen, closing)
            serve(chosen, running, made, stop)
            return ended(chosen, running)
        except ground.NoAddress as none:
            fail(TOOL, str(none), WRONG_USE)
        except stopping.Stopped as stopped:
            note(f"what was under way took more than {stopping.GRACE} s, and was broken off")
            drop_output()
            return BY_SIGNAL + stopped.number
        finally:
            stop.relent()
