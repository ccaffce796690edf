"""How a model is solved and judged, as values.

Commands make them of words, calls of Python of their arguments, both by `option_values`.
"""

from __future__ import annotations

from dataclasses import dataclass, field
from typing import Optional

from ..solvers.settings import SolverSettings
from .start_point import Start


@dataclass(frozen=True)
class CertificateSettings:
    """What is asked of the search for a certificate.

    Attributes:
        check: The proved program is asked what is true of the answer.
        prove: A certificate of the optimum is searched for, by long searches too.
        strict: What is not proved optimal, infeasible or unbounded has code 100. Whoever sets it
            sets `prove` and `Settings.certifies_sol`, too.
        bound: Without `prove`, a bound of an integer program is looked for all the same.
        shorten: A shorter certificate is looked for in the time that is left.
        processes: That search; 0 for as many as there are processors, 1 for this process alone.
        cluster: The address of a scheduler of Dask whose workers search; "" for none.
        path: Where an accepted certificate is kept; "" for nowhere.
        overwrite: Another certificate at that path is replaced.
    """

    check: bool = True
    prove: bool = False
    strict: bool = False
    bound: bool = True
    shorten: bool = False
    processes: int = 0
    cluster: str = ""
    path: str = ""
    overwrite: bool = False


@dataclass(frozen=True)
class Settings:
    """How one model is solved and judged.

    Attributes:
        solver: The name of the solver, a key of `solvers.SOLVERS`.
        solver_path: Its executable, where that is not on the PATH.
        bridge: The words that start the proved program; "" looks for it.
        solver_settings: What the solver is asked; its limit of time is a share of `time_limit`.
        time_limit: Seconds of the whole run, which `time_shares` divides; 0 for no limit, but of
            the search for a certificate, and infinite for none at all.
        solver_seconds: Of the solver, where the run has no limit; 0 for none.
        certificate: What is asked of the search for a certificate.
        objective: Which objective of the model, from 0.
        round_integers: Values of integer variables within 1e-5 of a whole number become that number.
        shortest_numbers: Numbers of an .nl file with 16 digits or more become the shortest ones with
            the same double. None is the same as False, but a note tells what else could be had.
        mps_form: `free` or `fixed`: how the lines of an MPS file are read; "" tries both.
        start: What solver and search begin with: the path of a file of values, or values by name;
            "" for the guess that the model has itself.
        keep_folder: Where the files in between are kept; "" for nowhere.
        makes_sol: The values are passed on as a .sol, which messages then name.
        certifies_sol: That .sol is the text that the proved program writes of an accepted
            certificate, byte for byte; where there is none it has no values.
        refuses_unclear: That a solver says "infeasible or unbounded" is no answer.
        shows_faults: An exception that is a fault of this package is raised as it is.
    """

    solver: str = "cbc"
    solver_path: str = ""
    bridge: str = ""
    solver_settings: SolverSettings = field(default_factory=SolverSettings)
    time_limit: float = 0.0
    solver_seconds: float = 0.0
    certificate: CertificateSettings = field(default_factory=CertificateSettings)
    objective: int = 0
    round_integers: bool = True
    shortest_numbers: Optional[bool] = None
    mps_form: str = ""
    start: Start = ""
    keep_folder: str = ""
    makes_sol: bool = False
    certifies_sol: bool = False
    refuses_unclear: bool = False
    shows_faults: bool = False


@dataclass(frozen=True)
class OutputSettings:
    """The files that are written beside the certificate.

    Attributes:
        sol: MODEL.sol is written beside the model.
        solution: Where names and values are written, as JSON where it ends with .json; "" for nowhere.
        overwrite: Another solution at that path is replaced.
    """

    sol: bool = False
    solution: str = ""
    overwrite: bool = False
