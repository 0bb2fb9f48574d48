"""The nights of examples/three_guides: an 855, an 860 and an 856 with a loop for each level, each accepted and rejected."""
from trial import Page, example, night

FOLDER = "three_guides"
GUIDES = [example(f"guides/{name}.toml") for name in ("h855", "h860", "h856_levels")]


def examples():
    page = Page("GUIDES.md, three guides")
    setup, counters = example(f"{FOLDER}/setup.toml"), example(f"{FOLDER}/counters.toml")
    for guide in ("h855", "h860", "h856_levels"):
        for end, status in (("accepted", 0), ("rejected", 1)):
            name = f"{FOLDER}/{guide}_{end}"
            found = night(setup=setup, guides=GUIDES, counters=counters, text=example(f"{name}.x12"))
            page.want(name, (found[0], found[3].get("ACME.ack")), (status, example(f"{name}.ack").encode()))
    return page
