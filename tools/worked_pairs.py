"""Pairs of a model text and an annotation text that both tools run the program on, and certificates in version 1.

Each pair has the status with which `emp solve` ends. The pairs of `examples/README.md` stand beside those that are written here.
"""
import os

EXAMPLES = os.path.join(os.path.dirname(os.path.abspath(__file__)), "..", "crates", "emp_cases", "data")


def model(declared, defined, solve="Solve m using EMP;"):
    """A model text of a line of declarations, a line for each definition or setting, and the end of the text."""
    return "\n".join([declared, *defined, "Model m / all /;", solve, ""])


# Two conditions that no point meets: the root has a deciding row.
APART = (model("Variables a, b, x, y;\nEquations da, db;", ["da.. a =e= sqr(x - y);", "db.. b =e= sqr(y - x - 1);"]),
         "equilibrium\nmin a x da\nmin b y db\n", 1)

SMALL = {
    "cournot": (model("Variables pi1, pi2, q1, q2;\nPositive Variables q1, q2;\nEquations d1, d2;",
                      ["d1.. pi1 =e= (10 - q1 - q2)*q1 - 2*q1;", "d2.. pi2 =e= (10 - q1 - q2)*q2 - 2*q2;"]),
                "equilibrium\nmax pi1 q1 d1\nmax pi2 q2 d2\n", 0),
    "upper": (model("Variables x;\nEquations f;", ["f.. x - 3 =n= 0;", "x.lo = 0;", "x.up = 2;"]), "equilibrium\nvi f x\n", 0),
    "dual": (model("Variables c, x, p;\nEquations d, need;", ["d.. c =e= 0.5*sqr(x);", "need.. x =g= 4;"]),
             "equilibrium\nmin c x d need\ndualvar p need\n", 0),
    "apart": APART,
    "shared": (model("Variables a, b, x, y, u;\nEquations da, db, s;", ["da.. a =e= sqr(x - 2);", "db.. b =e= sqr(y - 2);", "s.. x + y =l= 2;"]),
               "equilibrium\nmin a x da s\nmin b y db s\nvisol s\ndualvar u s\n", 0),
    "kink": (model("Variables z, x, y;\nEquations dz, c1, c2;", ["dz.. z =e= x - 3*y;", "c1.. y =l= x;", "c2.. y =l= 4 - x;", "x.lo = 0;", "x.up = 4;"],
                   "Solve m using EMP minimizing z;"), "bilevel x\nmax y c1 c2\n", 0),
    "unbounded": (model("Variables z, w, x, y;\nEquations dz, dw;", ["dz.. z =e= -x;", "dw.. w =e= sqr(y - x);"], "Solve m using EMP minimizing z;"),
                  "bilevel x\nmin w y dw\n", 2),
    "unanswered": (model("Variables z, w, x, y;\nPositive Variable y;\nEquations dz, dw;", ["dz.. z =e= x;", "dw.. w =e= -y;"],
                         "Solve m using EMP minimizing z;"), "bilevel x\nmin w y dw\n", 1),
    "split": (model("Positive Variables x, y;\nEquations f, g;", ["f.. y - 1 =g= 0;", "g.. x + 1 =g= 0;"]), "equilibrium\nvi f x g y\n", 1),
    "implicit": (model("Variables a, x, v, b, y;\nEquations da, db, e;",
                       ["da.. a =e= sqr(x - v);", "db.. b =e= sqr(y - 1);", "e.. v =e= x + 2*y - 4;"]),
                 "equilibrium\nmin a x v da\nmin b y v db\nimplicit v e\n", 0),
}


def examples():
    """The examples, by their names: the pairs that have a report beside them."""
    pairs = {}
    for name in sorted(os.listdir(EXAMPLES)):
        stem, end = os.path.splitext(name)
        if end == ".report":
            texts = []
            for file in (stem + ".gms", stem + ".info"):
                with open(os.path.join(EXAMPLES, file), encoding="utf-8") as it:
                    texts.append(it.read())
            pairs[stem] = (*texts, {"clash": 1, "grant": 2, "shortage": 1}.get(stem, 0))
    return pairs


def version_1(text):
    """The certificate of version 2 as one of version 1: a factor for each quantity, and no pairs named."""
    lines = text.splitlines()
    quantities = int(lines[1].split()[2])
    out = ["emp certificate 1"]
    for line in lines[1:]:
        words = line.split()
        if words[0] in ("farkas", "bound"):
            lead = 2 if words[0] == "bound" else 1
            factors = dict(word.split(":") for word in words[lead:])
            words = words[:lead] + [factors.get(str(k), "0") for k in range(1, quantities + 1)]
        if words[0] != "pair":
            out.append(" ".join(words))
    return "\n".join(out) + "\n"
