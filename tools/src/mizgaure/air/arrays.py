"""Recordings in arrays of other programs: .npy of numpy, and .mat of MATLAB up to version 7.3.

An array has one axis of time and may have one of antennas, which is the shorter one, of at most 16. Its values are complex, or
it has a last axis of two, I and Q, of floating point or of whole numbers with a sign, whose full scale is that of their type.
"""

from __future__ import annotations

import json
import os
import subprocess
import sys
import tempfile
from typing import Any, Dict, Optional, Tuple

import numpy as np

from ..errors import InputError
from .samples import MOST_CHANNELS, Layout, Recording

NPY, MAT = ".npy", ".mat"
HDF5 = b"\x89HDF\r\n\x1a\n"
PLACES = (0, 512, 1024, 2048)  # where HDF5 may begin; MATLAB has a head of 512 octets in front
FLOATS = {"f4": "cf32_le", "f8": "cf64_le"}
WHOLES = {"i1": "ci8", "i2": "ci16_le", "i4": "ci32_le"}


class ArrayRecording(Recording):
    """A recording in an array, of which slices are taken as they are asked for.

    Parameters
    ----------
    name : str
    array : array of numpy, or a data set of h5py
    rate : float
        Samples a second.
    frequency : float, optional
    owner : object, optional
        What has to be closed with it.

    Raises
    ------
    InputError
        If it isn't one of samples.
    """

    def __init__(self, name: str, array: Any, rate: float, frequency: Optional[float] = None, owner: Any = None) -> None:
        self._array, self._owner = array, owner
        self._split = array.dtype.names in (("real", "imag"), ("r", "i"))  # as HDF5 has complex numbers
        part = array.dtype[0] if self._split else array.dtype
        kind, size = part.kind, part.itemsize
        paired = kind in "fi" and not self._split
        shape = array.shape[:-1] if paired else array.shape
        datatype = (FLOATS if kind in "fc" else WHOLES).get(f"{'f' if kind == 'c' else kind}{size // 2 if kind == 'c' else size}")
        if datatype is None or paired and array.shape[-1:] != (2,):
            raise InputError(f"{name} has values of type {array.dtype}, and complex ones, or pairs of I and Q, are asked for")
        self._scale = np.float32(1) if kind in "fc" else np.float32(2.0 ** (1 - 8 * size))
        self._time = self._axis_of_time(name, shape)
        channels = shape[1 - self._time] if len(shape) == 2 else 1
        super().__init__(name, None, Layout(datatype, rate, int(channels)), frequency)
        self._length = int(shape[self._time])

    @staticmethod
    def _axis_of_time(name: str, shape: Tuple[int, ...]) -> int:
        if len(shape) == 1:
            return 0
        if len(shape) == 2:
            few = [axis for axis in (0, 1) if 1 <= shape[axis] <= MOST_CHANNELS]
            if len(few) == 1 or few and 1 in shape:
                return 1 - (few[0] if len(few) == 1 else shape.index(1))
        known = " x ".join(map(str, shape)) or "of one number"
        raise InputError(f"{name} has the shape {known}, and time by up to {MOST_CHANNELS} antennas is asked for")

    def _samples(self, first: int, count: int) -> np.ndarray:
        piece = slice(first, first + count)
        try:
            values = np.asarray(self._array[piece] if self._time == 0 else self._array[:, piece])
        except (RuntimeError, ValueError) as error:  # of a part that is compressed and spoiled
            raise InputError(f"{self.name} can't be read from sample {first} on") from error
        if self._split:
            values = np.stack([values[name] for name in values.dtype.names], axis=-1)
        elif values.dtype.kind == "c":
            values = np.stack((values.real, values.imag), axis=-1)
        if values.ndim == 2:
            values = values[None]
        elif self._time == 0:
            values = values.transpose(1, 0, 2)
        with np.errstate(over="ignore", invalid="ignore"):
            made = np.ascontiguousarray(values, np.float32)
        return (made * self._scale).view(np.complex64)[..., 0]

    def close(self) -> None:
        """Close the file."""
        if self._owner is not None:
            self._owner.close()


class _Mapped:
    """An array in a .npy, of which only what is asked for is in memory.

    Parameters
    ----------
    path : str
    """

    def __init__(self, path: str) -> None:
        self._path = path
        array = self._array()
        self.dtype, self.shape = array.dtype, array.shape

    def __getitem__(self, key: Any) -> np.ndarray:
        return np.array(self._array()[key])

    def _array(self) -> np.ndarray:
        array = np.load(self._path, mmap_mode="r", allow_pickle=False)
        if not isinstance(array, np.ndarray):
            array.close()
            raise InputError(f"{self._path} is an archive of arrays, and one array (.npy) is asked for")
        return array


def open_npy(path: str, rate: float, frequency: Optional[float] = None) -> Recording:
    """Open an array of numpy, which isn't read as a whole.

    Raises
    ------
    InputError
    """
    try:
        array = _Mapped(path)
    except InputError:
        raise
    except OSError as error:
        raise InputError(f"{path} can't be read: {error.strerror or error}") from error
    except Exception as error:  # numpy raises what its parser meets
        raise InputError(f"{path} is no whole array of numpy (.npy)") from error
    return _checked(ArrayRecording(path, array, rate, frequency))


def open_mat(path: str, rate: float, frequency: Optional[float] = None, variable: Optional[str] = None) -> Recording:
    """Open an array of MATLAB: one of version 7.3 by pieces, an older one as a whole.

    Parameters
    ----------
    path : str
    rate : float
    frequency : float, optional
    variable : str, optional
        The array's name; by default the only one that has samples.

    Raises
    ------
    InputError
    """
    try:
        with open(path, "rb") as stream:
            front = stream.read(PLACES[-1] + len(HDF5))
    except OSError as error:
        raise InputError(f"{path} can't be read: {error.strerror}") from error
    if any(front[place : place + len(HDF5)] == HDF5 for place in PLACES):
        return _checked(_open_hdf5(path, rate, frequency, variable))
    arrays = _loaded(path)
    return _checked(ArrayRecording(path, arrays[_chosen(path, arrays, variable)], rate, frequency))


# What loads a .mat in a process of its own, and keeps its arrays as files with the numbers of their names.
LOADER = """
import json, sys, numpy
try:
    from scipy.io import loadmat
except ImportError:
    sys.exit(3)
arrays = {name: value for name, value in loadmat(sys.argv[1]).items() if isinstance(value, numpy.ndarray) and value.dtype.kind in "cfi"}
for number, value in enumerate(arrays.values()):
    numpy.save(f"{sys.argv[2]}/{number}.npy", value)
print(json.dumps(list(arrays)))
"""


def _loaded(path: str) -> Dict[str, np.ndarray]:
    """The arrays of numbers in a .mat before version 7.3, by scipy, which may crash where the file is spoiled."""
    with tempfile.TemporaryDirectory(prefix="mizgaure-") as folder:
        words = [sys.executable, "-c", LOADER, os.path.abspath(path), folder]
        done = subprocess.run(words, stdout=subprocess.PIPE, stderr=subprocess.DEVNULL, check=False)
        if done.returncode == 3:
            raise InputError(f"{path}: a .mat is read by scipy; on Debian: apt install python3-scipy")
        if done.returncode:
            raise InputError(f"{path} is no whole .mat of MATLAB, or the folder of temporary files, {folder}, can't hold it")
        return {name: np.load(os.path.join(folder, f"{number}.npy")) for number, name in enumerate(json.loads(done.stdout))}


def _open_hdf5(path: str, rate: float, frequency: Optional[float], variable: Optional[str]) -> Recording:
    try:
        import h5py
    except ImportError:
        raise InputError(f"{path} is a .mat of version 7.3, which h5py reads; on Debian: apt install python3-h5py") from None
    try:
        file = h5py.File(path, "r")
        try:
            arrays = {name: value for name, value in file.items() if isinstance(value, h5py.Dataset)}
            return ArrayRecording(path, arrays[_chosen(path, arrays, variable)], rate, frequency, file)
        except BaseException:
            file.close()
            raise
    except InputError:
        raise
    except Exception as error:  # h5py raises what its library meets
        raise InputError(f"{path} is no whole .mat of MATLAB") from error


def _chosen(path: str, arrays: Dict[str, Any], variable: Optional[str]) -> str:
    """The name of the array of samples."""
    if variable is not None:
        if variable not in arrays:
            raise InputError(f"{path} has no array {variable}")
        return variable
    fit = [name for name, array in arrays.items() if max(array.shape, default=0) > MOST_CHANNELS and array.dtype.kind in "cfiV"]
    if len(fit) != 1:
        what = f"the arrays {', '.join(sorted(fit))}" if fit else "no array of samples"
        raise InputError(f"{path} has {what}" + ("; --variable names one" if fit else ""))
    return fit[0]


def _checked(recording: Recording) -> Recording:
    if recording.length == 0:
        recording.close()
        raise InputError(f"{recording.name} is empty")
    return recording


def is_array(path: str) -> bool:
    """Whether a file is one of these, by its name."""
    return os.path.splitext(path)[1].lower() in (NPY, MAT)
