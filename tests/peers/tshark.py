"""What tshark makes of frames, beside what their bytes say by document 01."""
import subprocess

import pcap
from fields import fields, made

CLEAN = ["_ws.malformed", "_ws.expert.message"]  # anything here is a complaint of tshark's
WHOLE = ["-o", "fc.reassemble:FALSE"]  # by default tshark joins frames by a size of its own, and shows wrong data


def decoded(path, names, options=()):
    """The fields of each packet of a pcap, by name; a field that is not there is empty."""
    ran = subprocess.run(["tshark", "-r", path, *options, "-T", "fields", "-E", "separator=/t", "-E", "occurrence=a", "-E", "aggregator=,"]
                         + [word for name in names for word in ("-e", name)], stdout=subprocess.PIPE, stderr=subprocess.PIPE, text=True)
    if ran.returncode:
        raise RuntimeError("tshark: " + ran.stderr)  # a field name that it does not know ends it, too
    return [dict(zip(names, line.split("\t"))) for line in ran.stdout.split("\n")[:-1]]


def names_of(wanted):
    return sorted({name for one in wanted for name in one})


def faults(wanted, got, names):
    """Each field that is not as it should be, and each complaint."""
    return ["%s is %s, and not %s" % (name, wanted.get(name, ""), got[name]) for name in names if wanted.get(name, "") != got[name]] + [
        "tshark says " + got[name] for name in CLEAN if got[name]]


def as_frames(path, frames, wanted):
    """Writes frames as a pcap; for each the fields that tshark finds, and its faults. Wanted has the right bytes of the drive's frames, and nothing for others."""
    pcap.fibre_channel(path, frames)
    right = [fields(f) if f else {} for f in wanted]
    names = names_of(right + [fields(frames[0][1])])
    found = decoded(path, names + CLEAN + ["fc.crc.status"], WHOLE)
    if len(found) != len(frames):
        raise RuntimeError("tshark shows %d packets of %d" % (len(found), len(frames)))
    told = []
    for want, got in zip(right, found):
        told.append(faults(want, got, names if want else []) + (["the CRC is wrong"] if got["fc.crc.status"] != "1" else []))
    return found, told


def as_iscsi(path, frames, wanted):
    """Writes commands, made data and responses as iSCSI; the faults of each that tshark can judge, by its place."""
    which = pcap.iscsi(path, frames)
    commands, right = {}, []
    for n in which:
        f, want = frames[n], wanted[n]
        if f[0] == 0x06:
            commands[f[5:8], f[16:18]] = f
        right.append(made(want, commands[f[1:4], f[16:18]]) if want else {})
    names = names_of(right)
    found = decoded(path, names + CLEAN[:1])  # "allocation_length too small" stands beside every INQUIRY of 36 bytes
    if len(found) != len(which):
        raise RuntimeError("tshark shows %d packets of %d" % (len(found), len(which)))
    return {n: faults(want, dict(got, **{CLEAN[1]: ""}), names) for n, want, got in zip(which, right, found) if want}
