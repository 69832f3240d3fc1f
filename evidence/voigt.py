"""Voigt matrices of tensors that pymatgen made symmetric under a class: random numbers, averaged over the operations.

command: /usr/bin/python3 evidence/voigt.py >evidence/voigt.txt

A line: the number of the group as in groups.txt (those without primed operations), the tensor, c or s, and the rows of the matrix.
The elastic and piezoelectric factors are pymatgen's: none for a stiffness and for the piezoelectric tensor, 2 and 4 for a
compliance.
"""
import math
import pathlib
import warnings

import numpy as np
from pymatgen.analysis.elasticity.elastic import ComplianceTensor, ElasticTensor
from pymatgen.analysis.piezo import PiezoTensor
from pymatgen.core.operations import SymmOp
from pymatgen.core.tensors import Tensor

warnings.simplefilter("ignore")
VALUES = {"1": 1, "1/2*r3": math.sqrt(0.75), "1/2": 0.5, "0": 0, "-1/2": -0.5, "-1/2*r3": -math.sqrt(0.75), "-1": -1}
random = np.random.default_rng(1949)
for line in pathlib.Path(__file__).with_name("groups.txt").read_text().splitlines():
    uni, _, name, operations = line.split("\t")
    if name == "-":
        continue
    turns = [SymmOp.from_rotation_and_translation(np.reshape([VALUES[it] for it in op.split()], (3, 3))) for op in operations.split("; ")]

    def averaged(tensor):
        return sum(np.array(tensor.transform(op)) for op in turns) / len(turns)

    pairs = random.integers(-99, 99, (6, 6)).astype(float)
    square = averaged(ElasticTensor.from_voigt(pairs + pairs.T))
    triple = averaged(PiezoTensor.from_voigt(random.integers(-99, 99, (3, 6)).astype(float)))
    single = averaged(Tensor((lambda m: m + m.T)(random.integers(-99, 99, (3, 3)).astype(float))))
    matrices = {
        ("[[V2]2]", "c"): ElasticTensor(square).voigt,
        ("[[V2]2]", "s"): ComplianceTensor(square).voigt,
        ("V[V2]", "c"): PiezoTensor(triple).voigt,
        ("[V2]", "c"): Tensor(single).voigt.reshape(1, 6),
    }
    for (tensor, weights), matrix in matrices.items():
        rows = [" ".join(f"{0.0 if abs(entry) < 1e-9 else entry:.9g}" for entry in row) for row in np.array(matrix)]
        print(uni, tensor, weights, "; ".join(rows), sep="\t")
