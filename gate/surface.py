"""The public items of the crates of the port, each of which the crate test_surface has to use.

That it is used with the right types is for the compiler to say. Here each is only looked for by its name: a method by that
of its type too, and a trait of a type in a call of a function of the module bounds.
"""

import re

import laws

CRATE = "crates/test_surface/src/"
BOUNDS = CRATE + "bounds.rt"

SOURCES = {
    "hash_core": {"gix_hash_core/src/": None},
    "chunk_core": {"gix_chunk_core/src/": None},
    "folder": {"graph_folder/src/": None},
    "layer": {
        "graph_layer/src/file": None,
        "graph_layer/src/opening.rt": {"File"},
        "graph_format/src/file.rt": None,
        "graph_format/src/error.rt": {"FileError"},
        "graph_format/src/parents.rt": {"ParentError", "ParentEdge", "ExtraEdge"},
    },
    "graph": {
        "gix_commitgraph/src/": None,
        "graph_walks/src/lib.rt": {"GENERATION_NUMBER_MAX"},
        "graph_format/src/lib.rt": None,
        "graph_format/src/fault.rt": None,
        "graph_format/src/error.rt": {"GraphError"},
        "graph_layer/src/opening/error.rt": None,
    },
    "vectors": {
        "graph_vectors/src/lib.rt": {"LayerPlan", "PlanCommit", "build", "reseal"},
        "graph_vectors/src/plan.rt": None,
        "graph_vectors/src/trailer.rt": None,
        "graph_encoder/src/plan.rt": {"PlanCommit"},
    },
    "history": {
        "graph_history/src/lib.rt": {"Checked", "NoFault", "Reached"},
        "graph_history/src/checked.rt": None,
        "graph_ancestors/src/checking.rt": {"NoFault"},
        "commit_search/src/lib.rt": {"Reached"},
    },
    "commands": {
        "graph_commands/src/run.rt": {"run_list", "run_verify", "run_distinct", "run_find", "run_ancestor", "WriteFailed"},
        "graph_commands/src/ancestor.rt": {"run_ancestor"},
        "graph_commands/src/line.rt": {"WriteFailed"},
    },
}
"""For each module of test_surface with its submodules, the sources whose public items it uses: the beginnings of their paths,
and the names of the items, or None where it uses all. Of graph_vectors, graph_history and graph_commands only what the port
was planned with is fixed here.
"""

PRIVATE = {"compare_ids", "WholeOpener"}
"""What is public in a private module alone."""

UNSEEN_TRAITS = {"Model", "PlanView"}
"""Traits that no caller of the port names: one for contracts alone, and one of the crate that writes files."""

COMMENT = re.compile(r"//.*")
DERIVE = re.compile(r"#\[derive\(([^)]*)\)\]")
ITEM = re.compile(r"pub (?:const )?(fn|struct|enum|trait|const) (\w+)")
IMPL = re.compile(r"impl(?:<.*?>)? (?:(?:\w+::)*(\w+)(?:<.*>)? for )?(?:\w+::)*(\w+)")
METHOD = re.compile(r"    pub (?:const )?fn (\w+)")
TRAIT_METHOD = re.compile(r"    fn (\w+)")
VARIANT = re.compile(r"    ([A-Z]\w*)")
FIELD = re.compile(r"    pub (\w+):")
EXPORT = re.compile(r"^pub use ((?:\w+::)*)(\w+|\{[^}]*\});", re.MULTILINE)
BOUND = re.compile(r"^pub fn (\w+)<(.*)>\(\) \{\}", re.MULTILINE)
BOUND_CALL = re.compile(r"bounds::(\w+)::<(.*)>\(\);")


def missing(texts):
    """The public items that test_surface does not use, and the sources that are not there."""
    for module, sources in SOURCES.items():
        ours = (CRATE + module + ".rt", CRATE + module + "/")
        uses = "".join(COMMENT.sub("", text) for path, text in texts.items() if path.startswith(ours))
        traits = used_traits(texts[BOUNDS], uses)
        for source, wanted in sources.items():
            found = [path for path in texts if path.startswith("crates/" + source) and not laws.FILE.fullmatch(path)]
            if not found:
                yield "%s is not there" % source
            for path in found:
                yield from ("%s has %s" % (path, name) for name in missing_in(path, texts[path], wanted, uses, traits))


def functions(texts):
    """The public functions and methods that test_surface has to use: its module, and the name, behind that of a type if it is a
    method.
    """
    for module, sources in SOURCES.items():
        for source, wanted in sources.items():
            for path, text in texts.items():
                if path.startswith("crates/" + source) and not laws.FILE.fullmatch(path):
                    yield from ((module, name) for name in functions_in(text, wanted))


def functions_in(text, wanted):
    """Those of a source: of the wanted types alone, or all where that is None."""
    for owner, name, pattern in items(text):
        if (wanted is None or owner in wanted) and owner not in PRIVATE and pattern.endswith("\\("):
            yield name


def used_traits(bounds, uses):
    """The traits that each name within the calls of functions of the module bounds has to have, by these functions."""
    asked = {function: set(re.findall(r"[A-Z]\w+", types)) for function, types in BOUND.findall(bounds)}
    traits = {}
    for function, types in BOUND_CALL.findall(uses):
        for name in re.findall(r"\w+", types):
            traits.setdefault(name, set()).update(asked[function])
    return traits


def missing_in(path, text, wanted, uses, traits):
    """The wanted public items of a source that are not used, and the traits of its types."""
    for owner, name, pattern in [*items(text), *exports(path, text)]:
        if (wanted is None or owner in wanted) and owner not in PRIVATE and not re.search(pattern, uses):
            yield name
    for owner, trait in traits_in(text):
        seen = traits.get(owner, set()) | UNSEEN_TRAITS
        if (wanted is None or owner in wanted) and owner not in PRIVATE and trait not in seen:
            yield "%s for %s" % (trait, owner)


def items(text):
    """The public items of a source: the one that they stand in, their names, and what has to stand where they are used."""
    kind = owner = None
    for line in text.split("\n"):
        item, block = ITEM.match(line), IMPL.match(line)
        if item:
            kind, owner = item.groups()
            yield owner, owner, r"(?<!fn )\b%s\(" % owner if kind == "fn" else r"\b%s\b" % owner
        elif block:
            kind, owner = "impl", block.group(2)
        elif line == "}":
            kind = None
        elif kind:
            yield from parts(kind, owner, line)


def exports(path, text):
    """What a source gives another path, as items are told: where it is used, the last module of that path stands before it."""
    crate, _, file = path.split("/", 3)[1:]
    module = crate if file == "lib.rt" else file[: -len(".rt")].split("/")[-1]
    for source, names in EXPORT.findall(text):
        if "law" not in source.split("::"):
            yield from ((name, name, r"\b%s::(?:\{[^}]*)?\b%s\b" % (module, name)) for name in re.findall(r"\w+", names))


def parts(kind, owner, line):
    """What a line within an item or a block has: a variant, a field or a method."""
    variant, field = VARIANT.match(line), FIELD.match(line)
    method = (TRAIT_METHOD if kind == "trait" else METHOD).match(line)
    if kind == "enum" and variant:
        yield owner, "%s::%s" % (owner, variant.group(1)), r"\b%s\b" % variant.group(1)
    elif kind == "struct" and field:
        yield owner, "%s.%s" % (owner, field.group(1)), r"\b%s \{[^}]*\b%s\b" % (owner, field.group(1))
    elif kind in ("impl", "trait") and method:
        yield owner, "%s::%s" % (owner, method.group(1)), r"\b%s::%s\(" % (owner, method.group(1))


def traits_in(text):
    """The types of a source, each with a trait that it has by a derive or by an impl."""
    derived = ()
    for line in text.split("\n"):
        item, block, derive = ITEM.match(line), IMPL.match(line), DERIVE.match(line)
        if derive:
            derived = derive.group(1).split(", ")
        elif item:
            yield from ((item.group(2), trait) for trait in derived)
            derived = ()
        elif block and block.group(1):
            yield block.group(2), block.group(1)
        elif not line.startswith(("#", "//")):
            derived = ()
