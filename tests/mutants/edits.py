"""Makes of a mutant the edit that `rt must-fail` reads: a twin gets the clauses that its function has now."""
import re

from checks.sources import BLOCK, head_end, line_at, lines_of, past_block, text_of

SELF_TYPE = re.compile(r"\bfor (.+?)(?: where .*)? \{$")


class BadMutant(Exception):
    """A mutant of which no edit can be made."""


def code(lines):
    """What lines say, in one line, without comments."""
    return " ".join(line.strip() for line in lines if not line.lstrip().startswith("//"))


def functions_of(mutant, crate):
    """The functions of the table's file that the heading names."""
    path = crate.folder / mutant.file
    return [each for each in crate.functions if each.path == path and mutant.function in each.names()]


def block_head(function):
    """The head of the impl or trait of a function, in one line, with its brace."""
    lines = lines_of(function.path)
    end = next(at for at in range(function.block, function.at) if lines[at].endswith("{"))
    return code(lines[function.block : end + 1])


def head(function):
    """The head of a function, with its clauses, in one line."""
    lines = lines_of(function.path)
    said = code(lines[function.at : head_end(lines, function.at) + 1])
    return re.sub(r" *(\{|;)$", "", said)


def attributes(function):
    """The attributes above a function that its twin shares: all but those of inlining."""
    lines, first = lines_of(function.path), function.at
    while lines[first - 1].strip() and not lines[first - 1].lstrip().startswith("//") and not lines[first - 1].endswith(("{", ";", "}")):
        first -= 1
    above = re.findall(r"#\[.*?\](?= #\[|$)", code(lines[first : function.at]))
    return [attribute for attribute in above if "#[inline" not in attribute]


def twin_head(function):
    return re.sub(rf"\bfn {function.name}\b", f"fn {function.name}_twin", head(function), count=1)


def ghosts(function):
    """The facts of the impl of a function: each name with its text, without the braces."""
    lines = lines_of(function.path)
    text = code(lines[function.block : function.at])
    return {found[1]: text[found.end() : past_block(text, found.end()) - 1].strip() for found in re.finditer(r"\bghost (\w+) = \{", text)}


def types_of(function):
    """The associated types of the impl of a function."""
    return " ".join(re.findall(r"\btype \w+ = .*?;", code(lines_of(function.path)[function.block : function.at])))


def facts_as_clauses(function, generics):
    """The head of a twin of a trait's function whose impl says in a fact what it gives, as `bitand_assign_gives`."""
    said = ghosts(function).get(f"{function.name}_gives")
    if not said:
        raise BadMutant(f"the impl of {function.names()[0]} has no fact {function.name}_gives")
    named = re.sub(r"\b(old|new)\b", r"self.\1", said.partition(". ")[2])
    clause = named or f"{said} self.old result self.new"  # a definition takes them in this order
    return re.sub(r"_twin\b", f"_twin{generics}", twin_head(function), count=1) + f" ensures {{ {clause} }}"


def own_generics(mutant, crate, function):
    """The generics of the impl of a function, for its twin; none where the twin stands in an impl that has them."""
    before, path = mutant.said.get("before"), crate.folder / mutant.file
    place = next((each for each in crate.functions if each.path == path and lines_of(path)[each.at].strip() == before), None)
    generics = re.match(r"impl(<.*?>) ", block_head(function))
    has_them = place and generics and block_head(place).startswith(f"impl{generics[1]} ")
    return generics[1] if generics and not has_them else ""


def holder_of(mutant, crate, traits):
    """A function of the impl that gives the type of the heading its function, which that may take from the trait."""
    owner, _, name = mutant.function.partition("::")
    return next((each for each in crate.functions if each.owner == owner and each.trait and (each.trait, name) in traits), None)


def own_impl(function):
    """The head of an impl for the type of a function, without a trait and without the brace."""
    return re.sub(r"^(impl(?:<.*?>)?) .* for ", r"\1 ", block_head(function).removesuffix(" {"))


def type_arguments(function, promised):
    """What the impl of a function writes for the type parameters of its trait, which promised it."""
    names = re.search(rf"\btrait {function.trait}<(.*?)>", block_head(promised))
    types = re.search(rf"\b{function.trait}<(.*)> for ", block_head(function))
    return dict(zip((name.partition(":")[0] for name in names[1].split(", ")), types[1].split(", "))) if names and types else {}


def in_types(types, said):
    """A head with types for its type parameters; in clauses an unsigned integer is a ℕ."""
    signature, *clauses = re.split(r"(?= (?:requires|ensures)\b)", said, maxsplit=1)
    in_clauses = {name: re.sub(r"^u(\d+|size)$", "ℕ", meant) for name, meant in types.items()}
    of = ((signature, types), *((clause, in_clauses) for clause in clauses))
    return "".join(re.sub(r"\w+", lambda word: meant.get(word[0], word[0]), text) for text, meant in of)


def parameters(fact):
    """The parameters of a fact of an impl, and what it says of them."""
    names = re.match(r"λ ([\w ]+)\. ", fact)
    return (names[1].split(), fact[names.end() :]) if names else ([], fact)


def arguments(text, start, end, fact):
    """The arguments of the name of a fact, as many as it has parameters and none where it is one itself, and the offset behind."""
    found, most = [], 0 if re.search(r"[\w)] $", text[:start]) else len(parameters(fact)[0])
    while len(found) < most and (one := re.match(r" ([\w.]+|\()", text[end:])):
        begin, end, depth = end + 1, end + one.end(), one[1].count("(")
        while depth:
            depth += {"(": 1, ")": -1}.get(text[end], 0)
            end += 1
        found.append(text[begin:end])
    return found, end


def of_arguments(fact, given):
    """What a fact says of arguments: the prover takes no λ that is applied."""
    names, said = parameters(fact)
    meant, left = dict(zip(names, given)), names[len(given) :]
    said = re.sub(r"(?<![\w.])(\w+)", lambda word: meant.get(word[1], word[1]), said)
    said = f"λ {' '.join(left)}. {said}" if left else said
    return said if re.fullmatch(r"\w+", said) else f"({said})"


def promise_of_trait(mutant, crate, traits):
    """The head of a twin of a trait's function, with the type arguments and in the facts of the type that the heading names."""
    holder = holder_of(mutant, crate, traits)
    if not holder:
        raise BadMutant(f"there is no function {mutant.function} in {mutant.file}")
    promised = traits[holder.trait, mutant.function.partition("::")[2]]
    types, own, said = type_arguments(holder, promised), ghosts(holder), twin_head(promised)
    said = in_types(types, said)
    for fact in own:
        for at in [each.start() for each in re.finditer(rf"(?<!ensures )(?<!requires )(?<![\w.]){fact}(?=[ )])", said)][::-1]:
            given, end = arguments(said, at, at + len(fact), own[fact])
            said = f"{said[:at]}{of_arguments(own[fact], given)}{said[end:]}"
    return f"pub {said}"


def twin_text(mutant, crate, traits):
    """The twin of a mutant, without what stands behind it, and the function that it is built over, if the file has it."""
    found = functions_of(mutant, crate)
    own = [each for each in found if each.clauses or not each.trait]
    if len(own) > 1:
        raise BadMutant(f"{mutant.file} has {len(own)} functions {mutant.function}")
    if own:
        said = twin_head(own[0])
    elif found and (found[0].trait, found[0].name) not in traits:
        said = facts_as_clauses(found[0], own_generics(mutant, crate, found[0]))
    else:
        said = promise_of_trait(mutant, crate, traits)
    return f"{said} {{ {' '.join(mutant.body)} }}", own[0] if own else None


def function_twin(mutant, crate, traits):
    """The pair that puts the twin of a function before it, or where the mutant says."""
    twin, function = twin_text(mutant, crate, traits)
    before, extra = mutant.said.get("before"), mutant.said.get("with", "")
    if before is None:
        if not function:
            raise BadMutant(f"{mutant.function} is not in {mutant.file}: a line 'before: ..' has to say where its twin stands")
        old = lines_of(function.path)[function.at].strip()
        return old, " ".join(filter(None, [extra, twin, *attributes(function), old]))
    if before not in (line.strip() for line in lines_of(crate.folder / mutant.file)):
        raise BadMutant(f"{mutant.file} has no line: {before}")
    twin = " ".join(filter(None, [extra, twin]))
    if BLOCK.match(before):
        holder = function or holder_of(mutant, crate, traits)
        owner = own_impl(holder) if holder else f"impl {mutant.function.split('::')[0]}"
        twin = f"{owner} {{ {twin} }}"
    return before, f"{twin} {before}"


def operator_twin(mutant, crate):
    """The pair that gives the impl of an operator or a walk another output and body, and the right impl to `&'a mut` of its type."""
    wanted = mutant.said["for"]
    found = [each for each in functions_of(mutant, crate) if SELF_TYPE.search(block_head(each))[1] == wanted]
    output = re.fullmatch(r"-> (.*?) (\{.*\})", " ".join(mutant.body))
    if len(found) != 1 or not output:
        raise BadMutant(f"{mutant.function} has {len(found)} impls for {wanted}, or its body has not the form -> OUTPUT {{ .. }}")
    old = block_head(found[0])
    parts = iter(mutant.said.get("parts", "").split(", "))
    facts = " ".join(f"ghost {name} = {{ {said} }};" for name, said in ghosts(found[0]).items())
    if "parts" in mutant.said:
        facts = re.sub(r"\(result[.\d]* ≡", lambda _: f"({next(parts)} ≡", facts)
    called = head(found[0]).partition(" ->")[0]
    types = re.sub(r"(?<=type Output = ).*?(?=;)", lambda _: output[1], types_of(found[0]))
    wrong = f"{old} {types} {facts} {called} -> {output[1]} {output[2]} }}"
    return old, f"{wrong} {mutable(old, wanted)}"


def mutable(impl, wanted):
    """The head of an impl, for &'a mut of the type that it is for."""
    if wanted.startswith("&'a "):
        return impl.replace(" for &'a ", " for &'a mut ")
    generics = re.sub(r"^impl(?:<(.*?)>)? ", lambda has: f"impl<'a{', ' + has[1] if has[1] else ''}> ", impl, count=1)
    return generics.replace(f" for {wanted}", f" for &'a mut {wanted}")


def pairs_of(mutant, crate, traits):
    """All pairs of a mutant, as file, old text and new text."""
    if not mutant.is_twin:
        return mutant.pairs
    twin = operator_twin(mutant, crate) if "for" in mutant.said else function_twin(mutant, crate, traits)
    return [*mutant.pairs, (mutant.file, *twin)]


def traits_of(crates):
    """The functions of the traits of these crates, by the names of trait and function."""
    return {(each.trait, each.name): each for crate in crates for each in crate.functions if each.trait and not each.owner}


def edit_text(pairs):
    """The pairs in the form that `rt must-fail` reads."""
    lines, last = [], None
    for file, old, new in pairs:
        lines += [f"file: {file}"] if file != last else []
        lines += [f"old: {old}", f"new: {new}"]
        last = file
    return "\n".join(lines) + "\n"


def applied(pairs, folder):
    """The texts of a crate's files after all pairs; each old text stands once in what the earlier ones made."""
    texts = {}
    for file, old, new in pairs:
        if file not in texts:
            texts[file] = text_of(folder / file) if (folder / file).is_file() else ""
        count = texts[file].count(old)
        if count != 1:
            raise BadMutant(f"the old text stands {count} times in {file}: {old[:80]}")
        texts[file] = texts[file].replace(old, new)
    return texts


def wrong_place(mutant, crate):
    """What is wrong with the heading of a mutant: the function that it names, or the text that lies elsewhere."""
    found = functions_of(mutant, crate)
    text = text_of(crate.folder / mutant.file)
    if not found and not mutant.is_twin:
        declared = rf"^\s*(?:pub\S* )?(?:impl|struct|enum|const|static)\b.*\b{re.escape(mutant.function)}\b"
        return None if re.search(declared, text, re.M) else f"{mutant.file} declares no {mutant.function}"
    if mutant.is_twin:
        return None
    lines = [line_at(text, text.find(old)) for file, old, _ in mutant.pairs if file == mutant.file]
    if any(each.at < line <= each.end + 1 for line in lines for each in found):
        return None
    return f"changes no line of {mutant.function}"
