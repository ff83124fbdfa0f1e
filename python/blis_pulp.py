"""A solver for PuLP whose answers are proved: `problem.solve(Blis())`.

The model is written in exact numbers, solved by the program, and read back: values are whole
numbers. What can't be said exactly is refused before anything runs, with the name of what is wrong:
continuous variables, missing bounds or bounds beyond 10^9, fractions in bounds, numbers that are no
decimals. A float counts as the decimal that Python prints for it.
"""
import os
import shutil
import subprocess
from decimal import Decimal
from fractions import Fraction

from pulp import constants
from pulp.apis.core import LpSolver_CMD, PulpSolverError

BUILT = os.path.join(
    os.path.dirname(os.path.realpath(__file__)), "..", "crates", "blis", "out", "blis"
)
FARTHEST = 10**9
KINDS = {
    constants.LpConstraintLE: "L",
    constants.LpConstraintGE: "G",
    constants.LpConstraintEQ: "E",
}


def exact(number, where):
    """The number as a fraction. A float is the decimal that it is printed as."""
    try:
        if isinstance(number, float):
            return Fraction(int(number)) if number.is_integer() else Fraction(repr(number))
        return Fraction(number)
    except (TypeError, ValueError, OverflowError) as cause:
        raise PulpSolverError(f"blis: {where} is {number!r}, which is no number") from cause


def decimal(number, where):
    """The text of a number that is a decimal of at most 27 places."""
    number = exact(number, where)
    for places in range(28):
        scaled = number * 10**places
        if scaled.denominator == 1:
            return f"{scaled.numerator}e-{places}" if places else str(scaled.numerator)
    raise PulpSolverError(f"blis: {where} is {number}, which is no decimal of 27 places")


def bound(variable, number, which):
    """A bound of a variable as a whole number."""
    if number is None:
        raise PulpSolverError(f"blis: variable {variable.name} has no {which} bound")
    number = exact(number, f"the {which} bound of {variable.name}")
    if number.denominator != 1:
        raise PulpSolverError(f"blis: the {which} bound of {variable.name} is not whole: {number}")
    if abs(number) > FARTHEST:
        raise PulpSolverError(f"blis: the {which} bound of {variable.name} is beyond 10^9: {number}")
    return int(number)


class Written:
    """A problem as fixed MPS, with names that are safe, and the variables in the file's order."""

    def __init__(self, problem):
        self.variables = [v for v in problem.variables() if v.name != "__dummy"]
        self.is_max = problem.sense == constants.LpMaximize
        rows = list(problem.constraints.items())
        terms = {v.name: [] for v in self.variables}
        self.add(terms, "COST", problem.objective, "the objective")
        lines = ["NAME          PULP"] + (["OBJSENSE", "    MAX"] if self.is_max else [])
        lines += ["ROWS", " N  COST"]
        rights = [("COST", exact(-problem.objective.constant, "the objective's constant"))]
        for i, (name, row) in enumerate(rows):
            lines.append(f" {KINDS[row.sense]}  R{i}")
            self.add(terms, f"R{i}", row, f"constraint {name}")
            rights.append((f"R{i}", exact(-row.constant, f"the right side of {name}")))
        lines += ["COLUMNS", "    M  'MARKER'  'INTORG'"]
        for j, variable in enumerate(self.variables):
            for row, number in terms[variable.name] or [("COST", "0")]:
                lines.append(f"    C{j}  {row}  {number}")
        lines += ["    M  'MARKER'  'INTEND'", "RHS"]
        lines += [f"    RHS  {row}  {decimal(right, row)}" for row, right in rights if right]
        lines.append("BOUNDS")
        for j, variable in enumerate(self.variables):
            if variable.cat != constants.LpInteger:
                raise PulpSolverError(f"blis: variable {variable.name} is continuous")
            lines.append(f" LO  BND  C{j}  {bound(variable, variable.lowBound, 'lower')}")
            lines.append(f" UP  BND  C{j}  {bound(variable, variable.upBound, 'upper')}")
        self.text = "\n".join(lines + ["ENDATA", ""])

    @staticmethod
    def add(terms, row, expression, where):
        """Adds the numbers of a row to its columns."""
        for variable, number in expression.items():
            if variable.name != "__dummy" and number:
                text = decimal(number, f"the coefficient of {variable.name} in {where}")
                terms[variable.name].append((row, text))


class Blis(LpSolver_CMD):
    """Solves integer programs exactly, within a budget of nodes.

    After a run `solver.bound` is the best value that any feasible point can have, as a Decimal, in
    the problem's own sense: the optimal value, or the bound that is left within the gap or at the
    budget's end. None where no point is feasible. With a gap the status is "Optimal", and
    `sol_status` is LpSolutionIntegerFeasible where the point may be worse, within the gap. At the budget's end the problem's status is "Not Solved", and its
    `sol_status` tells whether a feasible point was found.
    """

    name = "Blis"

    def __init__(
        self, path=None, nodes=None, workers=None, gap=None, keepFiles=False, msg=True, **kwargs
    ):
        """`nodes`: the budget, 0 to 100000 (20000 if not given); `workers`: so many threads, 1 to 64
        (as many as there are processors); `gap`: by how many whole units of the objective the
        answer may fail to be optimal, 0 to 10^9 (0); `path`: the program."""
        super().__init__(path=path, keepFiles=keepFiles, msg=msg, **kwargs)
        self.nodes, self.workers, self.gap, self.bound = nodes, workers, gap, None

    def copy(self):
        """An equal solver."""
        copy = super().copy()
        copy.nodes, copy.workers, copy.gap = self.nodes, self.workers, self.gap
        return copy

    def defaultPath(self):
        """The program on the path, or else the one that `solve` builds."""
        return shutil.which("blis") or BUILT

    def available(self):
        """The program's path, or False."""
        return self.executable(self.path)

    def actualSolve(self, lp):
        """Solves the problem, and gives its variables their values."""
        if not self.available():
            raise PulpSolverError(f"blis: {self.path} is not there; ./solve builds it")
        written = Written(lp)
        if self.keepFiles:
            with open(f"{lp.name}-pulp.mps", "w", encoding="ascii") as file:
                file.write(written.text)
        run = subprocess.run(
            [self.path, *self.words(), *self.options],
            input=written.text.encode("ascii"),
            stdout=subprocess.PIPE,
            check=False,
        )
        lines = [line.split() for line in run.stdout.decode("ascii").splitlines()]
        if run.returncode not in (0, 1) or lines[-1:] != [["end"]]:
            raise PulpSolverError(f"blis: {self.fault(run, written)}")
        if self.msg:
            print("blis:", ", ".join(" ".join(w) for w in lines if w[0] not in ("col", "end")))
        return self.take(lp, written, lines)

    def words(self):
        """The words after the program's name."""
        workers = min(64, os.cpu_count() or 1) if self.workers is None else self.workers
        asked = {"--workers": workers, "--nodes": self.nodes, "--gap": self.gap}
        given = [(name, str(number)) for name, number in asked.items() if number is not None]
        return [word for pair in given for word in pair]

    @staticmethod
    def fault(run, written):
        """The fault that the program tells, with the line that it speaks of."""
        text = run.stdout.decode("ascii", "replace").strip() or f"status {run.returncode}"
        words = text.split()
        lines = written.text.split("\n")
        if words[:3] == ["fault", "model", "line"] and int(words[3]) <= len(lines):
            text += f" ({lines[int(words[3]) - 1].strip()})"
        return text

    def take(self, lp, written, lines):
        """Takes the answer over into the problem."""
        told = {words[0]: words[1] for words in lines if words[0] not in ("col", "end")}
        values = {
            written.variables[int(words[1][1:])].name: int(words[2])
            for words in lines
            if words[0] == "col"
        }
        is_found = told.get("objective", "none") != "none"
        best = told.get("bound", told.get("objective", "none"))
        self.bound = None if best == "none" else Decimal(best)
        statuses = {
            "optimal": (constants.LpStatusOptimal, constants.LpSolutionOptimal),
            "within": (constants.LpStatusOptimal, constants.LpSolutionIntegerFeasible),
            "infeasible": (constants.LpStatusInfeasible, constants.LpSolutionInfeasible),
            "limit": (
                constants.LpStatusNotSolved,
                constants.LpSolutionIntegerFeasible
                if is_found
                else constants.LpSolutionNoSolutionFound,
            ),
        }
        status, found = statuses[told["status"]]
        if is_found:
            lp.assignVarsVals(values)
        lp.assignStatus(status, found)
        return status
