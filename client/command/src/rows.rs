//! The rows of the table of verbs.

use crate::index_job::IndexJob;
use crate::job;
use crate::options::{
    AS_ANY, AS_LANGUAGE, AS_PLAN, AS_TRANSLATOR, CARD, CLASS, INDEX, LIMIT, NEW_INDEX, NUMBER,
    OUTPUT, PACK as PACK_OUT, PAGE, SEEN, TARGET, TIDY, XML,
};
use crate::search_job::Search;
use crate::table::{Act, Is, Operand, Times, Verb};
use crate::term_job::TermJob;
use crate::tree_job::TreeJob;
use crate::{completion, draw, evaluate, explaining, files, manual, same, steps, verbs};

const FILE: Operand = Operand::file("FILE");
const LANGUAGE: Operand = Operand::file("LANGUAGE");
const F: Operand = Operand::file("F");
const G: Operand = Operand::file("G");
const PACK: Operand = Operand::file("PACK");
const TRANSLATOR: Operand = Operand::file("TRANSLATION-OR-PACK");
const TREE: Operand = Operand::file("TREE");
const PLAN: Operand = Operand::file("PLAN");
const TABLE: Operand = Operand::file("TABLE");
const TEXT: Operand = Operand::file("TEXT");
const BLOCK: Operand = Operand::file("BLOCK");
const CARD_FILE: Operand = Operand::file("CARD");
const ROOT: Operand = Operand::word("ROOT");
const PATH: Operand = Operand::word("PATH");
const LEVELS: Operand = Operand::word("LEVELS").times(Times::Perhaps);
const SHELL: Operand = Operand::word("SHELL");
const VERB: Operand = Operand { name: "VERB", is: Is::Verb, times: Times::Once };
const OPERANDS: Operand = Operand::word("OPERAND").times(Times::Any);

/// The verbs, in the order of the help.
pub static VERBS: &[Verb] = &[
    Verb {
        name: "check-language",
        forms: &[&[FILE]],
        options: &[],
        summary: "Check a language",
        details: "",
        refusals: "1 to 4",
        act: Act::Operation(job::load_check_language),
    },
    Verb {
        name: "check-translation",
        forms: &[&[FILE]],
        options: &[],
        summary: "Check a translation",
        details: "",
        refusals: "1 to 7",
        act: Act::Operation(job::load_check_translation),
    },
    Verb {
        name: "check-tree",
        forms: &[&[LANGUAGE, ROOT, TREE]],
        options: &[&AS_LANGUAGE, &TARGET],
        summary: "Check a tree of a root kind",
        details: "ROOT is the number of a kind, 0 to 31.",
        refusals: "1 to 4, 14 to 16",
        act: Act::Operation(TreeJob::load_check),
    },
    Verb {
        name: "locate",
        forms: &[&[LANGUAGE, ROOT, TREE]],
        options: &[&AS_LANGUAGE, &TARGET],
        summary: "Check a tree, and tell where its fault is",
        details: "ROOT is the number of a kind, 0 to 31. The answer is that of check-tree. Below a \
                  refusal 15 or 16 stands the position at which reading stopped, a byte of the tree \
                  counted from 0: where the node starts that cannot be, the end of the tree if it \
                  ends too early, or the first byte left over; or where level 65 is reached. It \
                  comes from the library; explain tells more.",
        refusals: "1 to 4, 14 to 16",
        act: Act::Operation(TreeJob::load_locate),
    },
    Verb {
        name: "reduce",
        forms: &[&[PACK]],
        options: &[&OUTPUT, &LIMIT],
        summary: "Reduce a pack to one translation",
        details: "The translation is printed in hexadecimal digits below the first line.",
        refusals: "1 to 13, 26",
        act: Act::Operation(job::load_reduce),
    },
    Verb {
        name: "run",
        forms: &[&[TRANSLATOR, ROOT, TREE]],
        options: &[&NUMBER, &OUTPUT, &LIMIT, &AS_TRANSLATOR],
        summary: "Run a translation, or what a pack reduces to, on a tree",
        details: "A pack is reduced first; it is told from a translation by its first byte. ROOT is \
                  the number of a kind, 0 to 31. On the second line stands the cost of the run: how \
                  many clauses were applied, each use of an argument anew. The result is printed in \
                  hexadecimal digits below it.",
        refusals: "1 to 7, 14 to 17; of a pack also 8 to 13, 26",
        act: Act::Operation(job::load_run),
    },
    Verb {
        name: "join",
        forms: &[&[F, G]],
        options: &[&OUTPUT, &PACK_OUT],
        summary: "Join two translations: G runs first, and F on what it gives",
        details: "F and G are translations or packs. The command puts a pack together whose term is \
                  their join, and reduces it: the translation is printed in hexadecimal digits below \
                  the first line. A refusal names the files that it speaks of.",
        refusals: "1 to 13, 26",
        act: Act::Operation(TermJob::load_join),
    },
    Verb {
        name: "sum",
        forms: &[&[F, G.times(Times::Often)]],
        options: &[&OUTPUT, &PACK_OUT],
        summary: "Add two or more translations",
        details: "All are translations or packs. The order does not matter. Where they do not fit, \
                  the files are named up to the first that does not fit those before it.",
        refusals: "1 to 13, 26",
        act: Act::Operation(TermJob::load_sum),
    },
    Verb {
        name: "without",
        forms: &[&[F, LANGUAGE]],
        options: &[&OUTPUT, &PACK_OUT, &TARGET],
        summary: "Take the words of a language out of a translation",
        details: "F is a translation or a pack. The classes and productions of the language go from \
                  its source, with their mappings and clauses; its target stays. For the language a \
                  translation or a pack is taken too.",
        refusals: "1 to 13, 26",
        act: Act::Operation(TermJob::load_without),
    },
    Verb {
        name: "identity",
        forms: &[&[LANGUAGE]],
        options: &[&OUTPUT, &PACK_OUT, &TARGET],
        summary: "Make the translation of a language to itself",
        details: "For the language a translation or a pack is taken too.",
        refusals: "1 to 13, 26",
        act: Act::Operation(TermJob::load_identity),
    },
    Verb {
        name: "source",
        forms: &[&[F]],
        options: &[&OUTPUT, &PACK_OUT],
        summary: "Take the source language of a translation or a pack",
        details: "The language is printed in hexadecimal digits below the first line. The pack is \
                  that of the identity of the source.",
        refusals: "1 to 13, 26",
        act: Act::Operation(TermJob::load_source),
    },
    Verb {
        name: "target",
        forms: &[&[F]],
        options: &[&OUTPUT, &PACK_OUT],
        summary: "Take the target language of a translation or a pack",
        details: "The language is printed in hexadecimal digits below the first line. The pack is \
                  that of the identity of the target.",
        refusals: "1 to 13, 26",
        act: Act::Operation(TermJob::load_target),
    },
    Verb {
        name: "same",
        forms: &[&[F, G]],
        options: &[],
        summary: "Tell whether two translations are the same",
        details: "F and G are translations or packs. They are the same if both reduce to the same \
                  bytes: then the status is 0. Where not, it is 1, and the first clause or mapping \
                  that differs is shown as each has it, or else the first entry of their languages.",
        refusals: "1 to 13, 26",
        act: Act::Other(same::same),
    },
    Verb {
        name: "score",
        forms: &[&[LANGUAGE, ROOT, TREE, TABLE]],
        options: &[&AS_LANGUAGE, &TARGET],
        summary: "Score a tree by a load table",
        details: "ROOT is the number of a kind, 0 to 31, and TABLE a load table of the language. A \
                  token scores its value, a production its constant plus each factor times that \
                  argument's score. The first line is 'accepted' with the score, which may be \
                  negative.",
        refusals: "1 to 4, 14 to 16, 18, 19",
        act: Act::Operation(TreeJob::load_score),
    },
    Verb {
        name: "score-loose",
        forms: &[&[LANGUAGE, ROOT, PLAN, TABLE]],
        options: &[&AS_LANGUAGE, &TARGET],
        summary: "Score a loose plan, whose tokens are not settled",
        details: "ROOT is the number of a kind, 0 to 31, and TABLE a load table of the language. PLAN \
                  is a tree with two values in the place of each token, the least and the greatest, \
                  of two bytes each: a row of 20 to 30 minutes is 01 0014 001E. The first line is \
                  'accepted' with the least and the greatest score, such as 'accepted 40 to 60': \
                  some choice of tokens reaches each, and none lies outside.",
        refusals: "1 to 4, 14 to 16, 18, 19",
        act: Act::Operation(TreeJob::load_score_loose),
    },
    Verb {
        name: "join-table",
        forms: &[&[TRANSLATOR, TABLE]],
        options: &[&OUTPUT, &LIMIT, &AS_TRANSLATOR],
        summary: "Join a load table onto a translation or a pack",
        details: "A pack is reduced first. TABLE is a load table of the translation's target. The joined table is one of its \
                  source: where it scores a tree, and TABLE the tree's run, both scores are equal. \
                  It is printed in hexadecimal digits below the first line.",
        refusals: "1 to 7, 11, 17, 18, 26; of a pack also 8 to 10, 12, 13",
        act: Act::Operation(job::load_join_table),
    },
    Verb {
        name: "export",
        forms: &[&[LANGUAGE, ROOT, TREE]],
        options: &[&OUTPUT, &LIMIT, &AS_LANGUAGE, &TARGET],
        summary: "Write a tree as XML",
        details: "ROOT is the number of a kind, 0 to 31. Production 1.4 is an element x1.4 around its \
                  arguments, a token of kind 2 with value 5 is <t2>5</t2>. The text is printed below \
                  the first line, with a line end behind it that the length does not count; -o \
                  writes it without one, also with --hex.",
        refusals: "1 to 4, 14 to 17",
        act: Act::Operation(TreeJob::load_export),
    },
    Verb {
        name: "import",
        forms: &[&[LANGUAGE, ROOT, TEXT]],
        options: &[&TIDY, &OUTPUT, &LIMIT, &AS_LANGUAGE, &TARGET],
        summary: "Read a tree from XML that export wrote",
        details: "ROOT is the number of a kind, 0 to 31. TEXT is a file that export -o wrote, or the \
                  same text: anything else in it, such as a space or a line end, is refused, unless \
                  --tidy drops it. It is read as it is, also with --hex, which is for the language and the result. The tree \
                  is printed in hexadecimal digits below the first line.",
        refusals: "1 to 4, 14, 16, 17, 20",
        act: Act::Operation(TreeJob::load_import),
    },
    Verb {
        name: "index",
        forms: &[&[LANGUAGE, ROOT, TREE]],
        options: &[&OUTPUT, &LIMIT, &AS_LANGUAGE, &TARGET],
        summary: "Build the index of a tree",
        details: "ROOT is the number of a kind, 0 to 31. An index has for each node of the tree, \
                  tokens too, in reading order its start and its length, two bytes each. It is \
                  printed in hexadecimal digits below the first line.",
        refusals: "1 to 4, 14 to 17, 22",
        act: Act::Operation(IndexJob::load_index),
    },
    Verb {
        name: "block",
        forms: &[&[LANGUAGE, ROOT, TREE, PATH]],
        options: &[&INDEX, &OUTPUT, &AS_LANGUAGE, &TARGET],
        summary: "Look up one block of a tree",
        details: "ROOT is the number of a kind, 0 to 31. PATH leads from the root to the block: \
                  argument numbers, from 1, with points between them, such as 2.1; - or an empty \
                  word is the path to the whole tree. Below the first line, which has the length of \
                  the block, stand its kind and where it starts in the tree, and then its bytes in \
                  hexadecimal digits.",
        refusals: "1 to 4, 14 to 16, 21, 22",
        act: Act::Operation(IndexJob::load_block),
    },
    Verb {
        name: "node",
        forms: &[&[LANGUAGE, ROOT, TREE, PATH]],
        options: &[&INDEX, &AS_LANGUAGE, &TARGET],
        summary: "Tell what stands at a path of a tree",
        details: "ROOT is the number of a kind, 0 to 31, and PATH leads to a node as for the verb \
                  block. Below the first line stand its kind, and the name of its production with \
                  how many arguments it has, or that it is a token; where there are names, its word \
                  besides.",
        refusals: "1 to 4, 14 to 16, 21, 22",
        act: Act::Operation(IndexJob::load_node),
    },
    Verb {
        name: "edit",
        forms: &[&[LANGUAGE, ROOT, TREE, PATH, BLOCK]],
        options: &[&CARD, &INDEX, &OUTPUT, &NEW_INDEX, &LIMIT, &AS_LANGUAGE, &TARGET],
        summary: "Replace one block of a tree",
        details: "ROOT is the number of a kind, 0 to 31, and PATH leads to a block as for the verb \
                  block. BLOCK is a tree of the same kind, which takes its place. Below the first \
                  line, which has the length of the new plan, stand the length of its index, and \
                  then the plan in hexadecimal digits. The limit is that of plan and index each.",
        refusals: "1 to 4, 14 to 17, 21, 22, 25",
        act: Act::Operation(IndexJob::load_edit),
    },
    Verb {
        name: "mask",
        forms: &[&[LANGUAGE, ROOT, TREE, CARD_FILE]],
        options: &[&OUTPUT, &LIMIT, &AS_LANGUAGE, &TARGET],
        summary: "Hide the blocks of a tree that a card does not show",
        details: "ROOT is the number of a kind, 0 to 31, and CARD a field 27 with the kinds that a \
                  person may see. In the masked plan each block of another kind, root and tokens \
                  included, is the one byte FF. It is printed in hexadecimal digits below the first \
                  line.",
        refusals: "1 to 4, 14 to 17",
        act: Act::Operation(TreeJob::load_mask),
    },
    Verb {
        name: "search",
        forms: &[&[TRANSLATOR, ROOT, TREE, LEVELS]],
        options: &[&OUTPUT, &LIMIT, &AS_TRANSLATOR],
        summary: "Find the source tree whose run gives a tree",
        details: "A pack is reduced first; it is told from a translation by its first byte. ROOT is \
                  the number of a kind of the source, 0 to 31, and TREE a tree of the target, of the \
                  kind to which ROOT is mapped. Of the source trees of at most LEVELS levels, 1 to \
                  16, that run to it, the first in byte order is printed in hexadecimal digits below \
                  the first line. Without LEVELS it is that of the fewest levels at which there is \
                  one, and the second line says how many: with more, plans come first that say more \
                  of it in words of the target. Where a clause drops an argument, its place takes the first legal \
                  tree within the levels that are left.",
        refusals: "1 to 7, 14 to 17, 23, 24, 26; of a pack also 8 to 13",
        act: Act::Operation(Search::load),
    },
    Verb {
        name: "list",
        forms: &[&[PACK]],
        options: &[],
        summary: "List the clauses of what a pack reduces to",
        details: "Prints what the listing program prints: 'accepted' and the length of the \
                  translation, and for each clause its result, name and code; or 'refused' and the \
                  number.",
        refusals: "1 to 13, 26",
        act: Act::Other(verbs::list),
    },
    Verb {
        name: "show",
        forms: &[&[FILE], &[LANGUAGE, ROOT, PLAN]],
        options: &[&AS_ANY, &SEEN, &TARGET],
        summary: "Show a file or a plan in words",
        details: "Prints a line for each entry of a language, a translation, a pack, a load table, a \
                  card or an index, or for each node of a plan: a tree, or with --as a loose or a \
                  masked plan. What a file is, its first byte tells. A file is shown whether or not \
                  it is accepted, unless it is refused with 1 or 2; below it stands the refusal, if \
                  it is refused. A load table is shown if it has whole fields 24 only, and a plan if \
                  it is legal. Codes are nested as dump writes them.",
        refusals: "",
        act: Act::Other(files::show),
    },
    Verb {
        name: "dump",
        forms: &[&[FILE], &[LANGUAGE, ROOT, PLAN]],
        options: &[&AS_ANY, &SEEN, &TARGET, &OUTPUT],
        summary: "Write a file or a plan as text that assemble reads",
        details: "The text has no lengths: those assemble counts. What show shows, dump writes, and \
                  assemble gives it back byte for byte. A clause is '1.4: 1.2(#1, #1)', or where \
                  there are names 'twice(x) = sequence(x, x)'; #2.1 and y.1 are the second argument \
                  by number 1.",
        refusals: "",
        act: Act::Other(files::dump),
    },
    Verb {
        name: "assemble",
        forms: &[&[TEXT]],
        options: &[&OUTPUT],
        summary: "Make a file from text that dump wrote, or that was written so",
        details: "The first word says what the text is: language, translation, pack, table, card, \
                  tree, loose, masked or index. Every length is counted. What is wrong in the text \
                  is told with its line and column, and with what was expected there. Whether the \
                  file is accepted, the checks tell.",
        refusals: "",
        act: Act::Other(files::assemble),
    },
    Verb {
        name: "draw",
        forms: &[&[LANGUAGE, ROOT, PLAN]],
        options: &[&AS_PLAN, &SEEN, &TARGET, &CLASS, &OUTPUT],
        summary: "Draw a session, in the terminal or as a picture",
        details: "Blocks are nested, and each leaf has a bar as long as its tokens. With -o the \
                  picture is written as SVG: blocks as boxes over a strip whose parts are as wide as \
                  their tokens, coloured by production, with a legend. Of a loose plan least and \
                  greatest are drawn, of a masked plan the hidden blocks as such. There are colours \
                  where the output is a terminal and NO_COLOR is not set.",
        refusals: "1 to 4, 14 to 16",
        act: Act::Other(draw::draw),
    },
    Verb {
        name: "explain",
        forms: &[&[VERB, OPERANDS]],
        options: &[&NUMBER, &LIMIT, &AS_LANGUAGE, &TARGET, &INDEX, &CARD],
        summary: "Tell where the fault is that an operation refuses",
        details: "VERB is one that answers 'accepted' or 'refused', with its operands and options; \
                  without one, the files tell which is meant. Below the first line stands where the \
                  fault is (the byte, counted from 0, or the line and column of a text, the field, \
                  the clause, the path of argument numbers in a tree, the operand in a term) and \
                  what it is; perhaps a hint, which length or tag would mend the file; and the tree \
                  around a fault in it. These lines come from a second implementation; if it does \
                  not come to the same number, that is said.\nWith a number alone, as in explain 13, \
                  that refusal is explained with an example.",
        refusals: "",
        act: Act::Other(explaining::explain),
    },
    Verb {
        name: "evaluate",
        forms: &[&[PACK]],
        options: &[],
        summary: "Tell the value of each sign of a pack's term",
        details: "Prints the term, a line for each sign, with the value that the library gives for \
                  it: how many bytes, classes, productions and clauses it has; or where the term is \
                  refused, and why.",
        refusals: "1 to 13, 26",
        act: Act::Other(evaluate::evaluate),
    },
    Verb {
        name: "steps",
        forms: &[&[PACK, ROOT, TREE]],
        options: &[&NUMBER, &LIMIT, &XML, &PAGE],
        summary: "Show a join's runs in turn beside the run of the join",
        details: "Where the pack's term is a join, runs its operands in turn, the second first, and \
                  prints each tree between them; then the result of the last run and that of the \
                  join, and that they are equal. Operands that are joins are taken apart too, and \
                  lets around a join go into each step. A tree between can be too deep or too long \
                  to be run: then that is said.",
        refusals: "",
        act: Act::Other(steps::steps),
    },
    Verb {
        name: "manual",
        forms: &[&[]],
        options: &[],
        summary: "Print the manual page",
        details: "The page is in the format of man: algebra manual > algebra.1; man ./algebra.1",
        refusals: "",
        act: Act::Other(manual::manual),
    },
    Verb {
        name: "completion",
        forms: &[&[SHELL]],
        options: &[],
        summary: "Print the completion of the command for a shell",
        details: "SHELL is bash or zsh. In bash: source <(algebra completion bash)",
        refusals: "",
        act: Act::Other(completion::completion),
    },
];
