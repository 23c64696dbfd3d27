"""What the desk is asked in the scripts that try it beside hostile files: lines, allotment files and requests."""
from driving import option, plan, request

DAY = "2030-06-01"
FLIGHT, SEA, YARD, BUS = f"F/AL/A1/{DAY}", f"R/INN/SEA/{DAY}", f"R/INN/YARD/{DAY}", f"T/BUS/X/{DAY}"
PLANS = (
    f"{FLIGHT}/1/2*;{SEA}/1/1|{YARD}/1/1;{BUS}/1/2!1",
    f"{FLIGHT}/1/1;{YARD}/1/1!0",
    f"{FLIGHT}/1/1*;{BUS}/1/1*;{YARD}/1/1!2",
)
FIRST = [
    f"set s1 {FLIGHT} 9", f"set s2 {SEA} 0", f"set s3 {YARD} 4", f"set s4 {BUS} 9",
    f"begin {PLANS[0]}", f"begin {PLANS[1]}", "step 1", "step 1", "step 1", "step 2", "save 2", "step 01",
    f"begin {PLANS[2]}", "step 3", "step 3", "abort 3 1", "step 3",
]
SECOND = [f"begin {PLANS[2]}", "step 4", f"begin {PLANS[1]}", "step 5", "step 4", "save 5", "abort 4 0", f"set s5 {SEA} 3"]
ROWS = "kind,supplier,product,night,places\n"
JUNE = ROWS + "flight,AL,A2,2030-06-01,10\nroom,INN,SEA,2030-06-02,4\n"
LARGE = ROWS + "".join(f"cover,CO,P{n},2030-07-01,{n}\n" for n in range(1, 1501))
JSON_PLAN = plan(option("flight", "AL", "A1"), option("transfer", "BUS", "X"), saves=(1,), tries=1).encode()
OLD_EVENTS = 9
ON = f"begin {PLANS[1]}\n"


def http_requests(first):
    """Some requests with keys, of which one is refused; the journey that they begin has this number."""
    at = f"/journeys/{first}"
    return [
        request("POST", f"/batches/july-{first}", f"k{first:02}1", (ROWS + "flight,AL,A1,2030-07-01,9\n").encode()),
        request("POST", "/journeys", f"k{first:02}2", JSON_PLAN),
        request("POST", f"{at}/step", f"k{first:02}3"),
        request("POST", f"{at}/step", f"k{first:02}3"),
        request("POST", f"{at}/save", f"k{first:02}4"),
        request("POST", f"{at}/step", f"k{first:02}5"),
        request("POST", f"{at}/step", f"k{first:02}6"),
        request("POST", "/journeys", f"k{first:02}7", JSON_PLAN),
        request("POST", f"/journeys/{first + 1}/step", f"k{first:02}8"),
        request("POST", f"/journeys/{first + 1}/abort/0", f"k{first:02}9"),
    ]
