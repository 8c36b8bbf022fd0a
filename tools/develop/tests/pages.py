"""What a report's picture says, and whether that is what `--json` says of the same transcript."""
from dataclasses import dataclass, field

from tblkit import report

COMMANDS = ("NOOP", "RESET_COUNTERS", "HOUSEKEEPING", "LOAD", "DUMP", "VALIDATE", "ACTIVATE", "DUMP_REGISTRY", "SEND_REGISTRY",
            "DELETE_CDS", "ABORT_LOAD", "Command")
IMAGE_ACTIVE = 5


@dataclass
class Element:
    """A mark of a picture, or a line below it: its name, its class, and what its attributes of data- say, as numbers where they are such."""
    name: str
    kind: str
    said: dict

    def has(self, word):
        return word in self.kind.split()


@dataclass
class Page:
    """The marks of a page's picture and the lines below it."""
    picture: list = field(default_factory=list)
    log: list = field(default_factory=list)

    def of_kind(self, kind):
        return [it.said for it in self.picture if it.said.get("kind") == kind]


def packed_in(markup):
    """The page that is drawn of what a page has packed."""
    return drawn(report.unpacked(markup))


def drawn(content):
    """The page that is drawn of a session, as the script that draws it has it: each request alone, none left out."""
    page, is_refused = Page(), set(content["refused"])
    for place, actor in enumerate(content["actor"]):
        kind = "refused" if place in is_refused else "accepted"
        page.picture.append(Element("path" if place in is_refused else "circle", kind, {
            "entry": place, "actor": content["actors"][actor]["number"], "status": content["status"][place]}))
        page.log.append(Element("div", f"entry {kind}", {"entry": int(content["lines"][place].split()[0])}))
    for table in content["tables"]:
        for first, last, kind, words, number in table["spans"]:
            own = {"image": {"image": number}, "pin": {"handle": number}, "load": {"phase": words}, "dump": {"phase": words}}.get(kind, {})
            page.picture.append(Element("rect", kind, {"entry": first, "kind": kind, "from": first, "to": last, "table": table["name"]} | own))
        page.picture += [Element("path", "refused", {"entry": it, "status": content["status"][it], "table": table["name"]}) for it in table["refusals"]]
    page.picture += [Element("path", "reset-mark", {"entry": it, "kind": "reset"}) for it in content["resets"]]
    return page


def is_refused(answer):
    return answer["status"] >= 32 or answer["status"] == 9 or answer["request"] in COMMANDS and answer["status"] != 0


def events(answers, number):
    """The place, table and detail of each event of this number."""
    return {(it["place"], packet["table"], packet["detail"]) for it in answers for packet in it["packets"]
            if packet["kind"] == "event" and packet["number"] == number}


def handle_of(answer):
    return int(answer["line"].split()[3])


def differences(page, told):
    """What a report's page says otherwise than the lines of `--json`: what differs, what the page says, and what they say."""
    answers = [it for it in told if "place" in it and "actor" in it]
    by_place = {it["place"]: it for it in answers}
    accepted = {(name, it["place"]) for it in answers for name in [it["request"]] if not is_refused(it)}
    images = {(it["from"], it["table"], it["image"]) for it in page.of_kind("image")}
    pins, loads = page.of_kind("pin"), page.of_kind("load")
    asked, of_tables = ([it for it in page.picture if name in it.said and "kind" not in it.said] for name in ("actor", "table"))
    checks = {
        "requests": ({(it.said["entry"], it.said["actor"], it.said["status"]) for it in asked},
                     {(it["place"], it["actor"], it["status"]) for it in answers}),
        "lines": ([it.said["entry"] for it in page.log], [it["place"] for it in answers]),
        "refused lines": ({it.said["entry"] for it in page.log if it.has("refused")}, {it["place"] for it in answers if is_refused(it)}),
        "refused requests": ({it.said["entry"] for it in asked if it.has("refused")}, {it["place"] for it in answers if is_refused(it)}),
        "statuses of tables": ({(it.said["entry"], it.said["status"]) for it in of_tables},
                               {(it.said["entry"], by_place[it.said["entry"]]["status"]) for it in of_tables}),
        "refusals with a table": (events_refused(answers) - {(it.said["entry"], it.said["table"]) for it in of_tables}, set()),
        "images": (images - made_by_calls(images, by_place), events(answers, IMAGE_ACTIVE)),
        "addresses got": ({(it["from"], it["handle"]) for it in pins},
                          {(it["place"], handle_of(it)) for it in answers if it["request"] == "Get" and it["status"] in (0, 1)}),
        "addresses released": ({(name, place) for name, place in accepted if name == "Release"} - {("Release", it["to"]) for it in pins},
                               set()),
        "activations asked": ({it["from"] for it in loads if it["phase"] == "activation asked"}, places(accepted, "ACTIVATE")),
        "loads opened": ({it["from"] for it in loads if it["phase"] == "load open"} - places(accepted, "LOAD"), set()),
        "loads aborted": (places(accepted, "ABORT_LOAD") - {it["to"] for it in loads}, set()),
        "resets": ({it["entry"] for it in page.of_kind("reset")},
                   {it["place"] for it in answers if it["request"] == "Reset" or it["status"] == 10})}
    return [(name, *it) for name, it in checks.items() if it[0] != it[1]]


def places(accepted, request):
    return {place for name, place in accepted if name == request}


def events_refused(answers):
    return {(it["place"], packet["table"]) for it in answers for packet in it["packets"]
            if packet["kind"] == "event" and packet["number"] == 2 and "table" in packet}


def made_by_calls(images, by_place):
    """The images that no event tells of: those that a registration begins with, and those of an Edit."""
    return {it for it in images for answer in [by_place[it[0]]]
            if answer["request"] == "Edit" or answer["request"] == "Register" and (answer["status"] == 2 or "dump-only" in answer["line"])}
