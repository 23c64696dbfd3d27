"""What the desk answers, by the plain desk and docs/HTTP.md: the bytes of its lines, pages and reports."""
from driving import compact
from ledger import report, stock_report
from plain_desk import BACK, RUN, Refusal, item_text, line_of, request_in
from rows_pages import page, page_of
from soak_asks import bytes_of


def where(identity, pos, phase):
    target = {"target": phase[1]} if phase[0] == "back" else {}
    return {"journey": identity, "pos": pos, "state": phase[0], **target}


def shown(desk, agent, what):
    """What an agent is shown: the text of a report, a JSON value, or a refusal."""
    if what == "stock":
        return stock_report({"stock": desk.stock_rows()})
    if what == "unfinished":
        own = [n for n in desk.numbers(RUN, BACK) if desk.journeys[n - 1].agent == agent]
        return {"unfinished": [where(n, desk.journeys[n - 1].pos(), desk.phases[n - 1]) for n in own]}
    if not 1 <= what <= len(desk.journeys) or desk.journeys[what - 1].agent != agent:
        return Refusal(9)
    journey = desk.journeys[what - 1]
    return {"history": [item_text(item) for item in journey.items], **where(what, journey.pos(), journey.phase())}


def answer(desk, saying):
    """What the desk answers to a saying, which it does: the bytes, and the reply."""
    if "means" not in saying:
        request = request_in(bytes_of(saying))
        reply = request if isinstance(request, Refusal) else desk.outcome(request)
        return (line_of(reply) + "\n").encode(), reply
    kind, *rest = saying["means"]
    closes, head, allow = ["Connection: close"] * saying.get("closes", False), saying.get("head", False), ""
    if kind == "show":
        reply = shown(desk, *rest)
        if not isinstance(reply, Refusal):
            return page(200, reply if isinstance(reply, str) else compact(reply), *closes, head=head), None
    elif kind == "refused":
        reply, allow = Refusal(*rest[:4]), rest[4]
    else:
        agent, key, text, request = rest
        reply = desk.outcome(tuple(request), (agent, key, text.encode("latin-1")))
    return page_of(line_of(reply), *[f"Allow: {allow}"] * bool(allow), *closes, head=head), reply


def report_of(desk, word, rest):
    """What a report prints of a desk."""
    return b"refused 23 AlreadyNew\n" if word == "migrate" else report(desk.tables(), word, *rest)[0].encode()
