"""Numbers in the prose of pages that a script can count."""
import re

from .repository import LIBRARY
from .sources import line_at, text_of

WORDS = "zero one two three four five six seven eight nine ten eleven twelve thirteen fourteen fifteen sixteen seventeen eighteen nineteen".split()
TENS = dict(zip("twenty thirty forty fifty sixty seventy eighty ninety".split(), range(20, 100, 10)))


def number(said):
    """The number that digits, with commas, or words below a hundred say; None for other words."""
    if re.fullmatch(r"\d{1,3}(,\d{3})+|\d+", said):
        return int(said.replace(",", ""))
    tens, _, ones = said.lower().partition("-")
    if tens in TENS:
        return TENS[tens] + (WORDS.index(ones) if ones in WORDS[1:10] else 0)
    return WORDS.index(said.lower()) if said.lower() in WORDS else None


def modules_of_uses(repository):
    return len([path for path in repository.crate("uses").modules() if path.name != "lib.rt"])


def exports(repository):
    sources = (repository.crates / "hibitset_c" / "src").rglob("*.rt")
    return sum(len(re.findall(r'^ *pub extern "C" fn ', text_of(path), re.M)) for path in sources)


def stored_scripts(repository):
    scripts = (repository.top / "tests" / "differential" / "scripts").glob("*.txt")
    name = r"^=== (?!(?:args|stdin|stdout|out|err|status)\b)"
    return sum(len(re.findall(name, text_of(path), re.M)) for path in scripts)


def laws(repository):
    crates = (repository.crate(name) for name in LIBRARY)
    return sum(each.name.endswith("laws") and crate.is_public(each) for crate in crates for each in crate.functions)


def constant(file, found):
    """What reads a number of a source of hibitset_base, by what stands before it."""

    def read(repository):
        text = text_of(repository.crates / "hibitset_base" / "src" / file)
        return int(re.search(rf"{found}([\d_]+)", text, re.S)[1].replace("_", ""))

    return read


def worth(cost):
    """What reads from how much work on a call takes threads."""
    return constant("parallel/cost.rt", rf"const {cost}: CostModel = CostModel {{[^}}]*worth: ")


# What pages say, with the number as its group, and what counts it.
PHRASES = (
    (r"\| `for_each`, `fold` \| (\S+) members", "members of MIN_LEN", constant("parallel/par_iter.rt", "const MIN_LEN: usize = ")),
    (r"\| `count`, `collect` \| (\S+) members", "members of READ_COST", worth("READ_COST")),
    (r"\| `count`, if words are cheap \| (\S+) words", "words of COUNT_COST", worth("COUNT_COST")),
    (r"\| `collect`, if words are cheap \| (\S+) units", "units of COLLECT_COST", worth("COLLECT_COST")),
    (r"1 for each of its first (\S+) members", "members of COUNTED_MEMBERS", constant("parallel/cost.rt", "const COUNTED_MEMBERS: usize = ")),
    (r"0 for a word with more than (\S+)", "bits of MAX_BITS_BY_EIGHTS", constant("bulk/word_indices.rt", r"const MAX_BITS_BY_EIGHTS: usize = ")),
    (r"crates/uses/README\.md\)\*{0,2}(?: has|:) (\S+) (?:whole )?modules", "modules of uses", modules_of_uses),
    (r"(?<!\S)(\S+) exports for C\b", "exports of hibitset_c", exports),
    (r"(?<!\S)(\S+) calls that do nothing, whose contracts are facts of all sets", "calls that state laws", laws),
    (r"(?<!\S)(\S+) scripts(?= with the answers|, six)", "stored scripts", stored_scripts),
)

# Lists of modules of uses, with how many they are: the number and the names.
LISTS = re.compile(r"(\S+) modules (?:work on|are about) [^:;.]*: ([^;.]*)")


def wrong_lists(repository):
    """The lists of modules of uses that have other names than there are, or another number of them."""
    there = {path.stem for path in repository.crate("uses").modules()}
    for page in repository.pages:
        for each in LISTS.finditer(text_of(page)):
            names, line = re.findall(r"`(\w+)`", each[2]), line_at(text_of(page), each.start())
            yield from ((page, line, f"names {name}, which is no module of uses") for name in names if name not in there)
            if number(each[1]) != len(names):
                yield page, line, f"says {each[1]} modules where it names {len(names)}"


def wrong_counts(repository, phrases=PHRASES):
    """The numbers of pages that are not what is counted, and the phrases that no page has."""
    for phrase, what, count in phrases:
        found = [(page, each) for page in repository.pages for each in re.finditer(phrase, text_of(page))]
        if not found:
            yield repository.top / "tests" / "checks" / "counts.py", 1, f"no page says how many {what} there are: {phrase}"
            continue
        counted = count(repository)
        for page, each in found:
            if number(each[1]) != counted:
                yield page, line_at(text_of(page), each.start(1)), f"says {each[1]} where there are {counted} {what}"
