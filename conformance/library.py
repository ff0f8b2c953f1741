"""The C interface, include/haruseopda.h, for ctypes."""
import ctypes
from ctypes import c_double, c_size_t, c_uint8, c_uint32, c_void_p


class Answer(ctypes.Structure):
    _fields_ = [("number", c_uint32), ("value", c_uint32), ("place", c_size_t)]


class Job(ctypes.Structure):
    _fields_ = [("number", c_uint32), ("kind", c_uint32), ("width", c_uint32), ("height", c_uint32), ("place", c_size_t),
                ("plunges", c_size_t)]


class ListAnswer(ctypes.Structure):
    _fields_ = [("number", c_uint32), ("place", c_size_t), ("bytes", c_size_t), ("plunges", c_size_t), ("rungs", c_size_t)]


class Scale(ctypes.Structure):
    _fields_ = [("half_pitch", c_double), ("column_offset", c_double), ("row_offset", c_double)]


class MotionsAnswer(ctypes.Structure):
    _fields_ = [("number", c_uint32), ("changed", c_uint32), ("place", c_size_t), ("width", c_double), ("x", c_double),
                ("y", c_double), ("sink", c_double)]


class Port(ctypes.Structure):
    _fields_ = [("bytes", c_uint8 * 8)]


class PortAnswer(ctypes.Structure):
    _fields_ = [("number", c_uint32), ("place", c_size_t), ("port", Port)]


BUFFER = [c_void_p, c_size_t]
TABLE = [c_void_p]                      # 256 numbers of two bytes
PLATE = [c_uint32, c_uint32]
RELIEF = BUFFER + [c_uint32] + PLATE    # relief, its length, kind, width, height

MAP_CALLS = {
    "haru_clearance": (Answer, RELIEF + [c_uint32, c_uint32, c_uint32]),
    "haru_clearance_map": (Answer, RELIEF + [c_uint32] + BUFFER),
    "haru_axis_map": (Answer, RELIEF + [c_uint32] + BUFFER),
    "haru_reconstruct": (Answer, RELIEF + BUFFER),
    "haru_rung_map": (Answer, RELIEF + [c_uint32] + 3 * BUFFER),
    "haru_residue_map": (Answer, RELIEF + [c_uint32] + 3 * BUFFER),
    "haru_largest_residue_map": (Answer, RELIEF + 3 * BUFFER),
    "haru_residue_sum_map": (Answer, RELIEF + 3 * BUFFER),
    "haru_volume": (Answer, BUFFER + PLATE),
}
JOB_CALLS = {
    "haru_read": (Job, BUFFER),
    "haru_draw": (Answer, 2 * BUFFER),
    "haru_list": (ListAnswer, RELIEF + 3 * BUFFER),
    "haru_tidy": (ListAnswer, 5 * BUFFER),
    "haru_check": (Answer, 4 * BUFFER),
    "haru_motions": (MotionsAnswer, BUFFER + [c_size_t, Scale]),
    "haru_load_table": (Answer, BUFFER + TABLE),
    "haru_write_table": (Answer, TABLE + BUFFER),
    "haru_built_in_table": (None, TABLE),
    "haru_table_motions": (MotionsAnswer, TABLE + BUFFER + [c_size_t, Scale]),
    "haru_fresh_port": (Port, []),
    "haru_port_write": (PortAnswer, [Port, c_size_t, c_uint8]),
    "haru_port_event": (PortAnswer, [Port, c_uint32]),
    "haru_port_run": (PortAnswer, [Port] + 2 * BUFFER),
}


def load(path):
    """The calls that the shared object has, by name."""
    shared = ctypes.CDLL(path)
    calls = {}
    for name, (result, arguments) in {**MAP_CALLS, **JOB_CALLS}.items():
        try:
            call = getattr(shared, name)
        except AttributeError:
            continue
        call.restype, call.argtypes = result, arguments
        calls[name] = call
    return calls
