"""The fields of the drive's frames, read off the bytes by the layout of documents 01 ("01") and 02, and named and written as tshark does."""
from port import number


def hexes(names, f, places):
    """Fields of one to four bytes in hexadecimal: where each starts, and how many bytes it has."""
    return {name: "0x" + f[at:at + size].hex() for name, (at, size) in zip(names, places)}


def name_of(b):
    return ":".join("%02x" % one for one in b)


def address(b):
    return ".".join("%02x" % one for one in b)


def header(f):
    """01: "24 bytes: R_CTL, D_ID(3), reserved, S_ID(3), TYPE, F_CTL(3), SEQ_ID, DF_CTL, SEQ_CNT(2), OX_ID(2), RX_ID(2), OFFSET(4)"."""
    found = hexes(("fc.r_ctl", "fc.cs_ctl", "fc.type", "fc.f_ctl", "fc.seq_id", "fc.df_ctl", "fc.ox_id", "fc.rx_id"), f,
                  ((0, 1), (4, 1), (8, 1), (9, 3), (12, 1), (13, 1), (16, 2), (18, 2)))
    found.update({"fc.d_id": address(f[1:4]), "fc.s_id": address(f[5:8]), "fc.seq_cnt": str(number(f[14:16]))})
    if f[11] & 0x08:  # F_CTL 880008: OFFSET is one
        found["fc.relative_offset"] = str(number(f[20:24]))
    else:
        found["fc.parameter"] = "0x" + f[20:24].hex()
    return found


def login_accept(p):
    """"ACC is 02 00 00 00 and the setup words": word by word as 000 has them."""
    return {"fcels.logi.b2b": str(number(p[6:8])), "fcels.logi.cmnfeatures": "0x" + p[8:10].hex(), "fcels.logi.bbscnum": str(p[10] >> 4),
            "fcels.logi.rcvsize": str(number(p[10:12]) & 0x0FFF), "fcels.logi.maxconseq": str(p[13]), "fcels.logi.reloff": str(number(p[14:16])),
            "fcels.edtov": str(number(p[16:20])), "fcels.npname": name_of(p[20:28]), "fcels.fnname": name_of(p[28:36]),
            "fcels.logi.clsflags": ",".join("0x" + p[at:at + 2].hex() for at in (36, 52, 68, 84)),  # classes 1 to 4; the rest only of a valid class
            "fcels.logi.initctl": "0x" + p[70:72].hex(), "fcels.logi.rcptctl": "0x" + p[72:74].hex(),
            "fcels.logi.clsrcvsize": str(number(p[74:76])), "fcels.logi.totconseq": str(p[77]), "fcels.logi.e2e": str(number(p[78:80])),
            "fcels.logi.openseq": str(p[81]), "fcels.logi.vendvers": p[100:116].hex()}


def pairing_accept(p):
    """"ACC 02 10 00 14, 08 00 21 00, two zero words, 00 00 00 12", and PRLO's."""
    return {"fcels.prlilo.page_length": str(p[1]), "fcels.prlilo.payload_length": str(number(p[2:4])), "fcels.prlilo.type": str(p[4]),
            "fcels.prlilo.type_code_extension": str(p[5]), "fcels.prliloflags": "0x" + p[6:7].hex(), "fcels.prlilo.originator_pa": "0x" + p[8:12].hex(),
            "fcels.prlilo.responder_pa": "0x" + p[12:16].hex(), "fcels.fcpflags": "0x" + p[16:20].hex()}


def service(p):
    """A link service's answer, told by its code and size, or the drive's LOGO."""
    found = {"fcels.opcode": "0x" + p[:1].hex()}
    if p[0] == 0x01:  # "LS_RJT is 01 00 00 00, then 00, reason, explanation, 00"
        found.update(hexes(("fcels.rjt.reason", "fcels.rjt.detail", "fcels.rjt.vnduniq"), p, ((5, 1), (6, 1), (7, 1))))
    elif p[0] == 0x05:  # "05 00 00 00, own address, own port name"
        found.update({"fcels.portid": address(p[5:8]), "fcels.npname": name_of(p[8:16])})
    elif len(p) == 116:
        found.update(login_accept(p))
    elif len(p) == 28:  # "ADISC ACC: 02 00 00 00, own address, own names, own address"
        found.update({"fcels.hrdaddr": address(p[5:8]), "fcels.npname": name_of(p[8:16]), "fcels.fnname": name_of(p[16:24]), "fcels.portid": address(p[25:28])})
    elif len(p) == 20:
        found.update(pairing_accept(p))
    return found


def aborted(f):
    """"BA_ACC 00000000, OX_ID, FFFF, 0000, FFFF", "BA_RJT 00 03 03 00"."""
    if f[0] == 0x84:
        return hexes(("fc.bls_seqidvld", "fc.bls_lastseqid", "fc.bls_oxid", "fc.bls_rxid", "fc.bls_lseqcnt", "fc.bls_hseqcnt"), f,
                     ((24, 1), (25, 1), (28, 2), (30, 2), (32, 2), (34, 2)))
    return hexes(("fc.bls_reason", "fc.bls_rjtdetail", "fc.bls_vnduniq"), f, ((25, 1), (26, 1), (27, 1)))


def sense(s):
    """"70, 00, key, 4 zeros, 0A, code and qualifier at 12, 13"."""
    return {"scsi.sns.errtype": "0x%02x" % (s[0] & 0x7F), "scsi.sns.key": "0x%02x" % (s[2] & 0x0F), "scsi.sns.info": "0x" + s[3:7].hex(),
            "scsi.sns.addlen": str(s[7]), "scsi.sns.command_specific_information": s[8:12].hex(), "scsi.sns.ascascq": "0x" + s[12:14].hex(),
            "scsi.sns.fru": "0x" + s[14:15].hex(), "scsi.sns.sks_info": "0x%06x" % (number(s[15:18]) & 0x7FFFFF)}


def response(p):
    """"bytes 10 flags, 11 status, 12 FCP_RESID, 16 sense length, 20 response length"; tshark shows a number only where its flag is set."""
    flags = p[10]
    found = {"fcp.rsp.retry_delay_timer": str(number(p[8:10])), "fcp.rspflags": "0x%02x" % flags, "fcp.status": "0x%02x" % p[11], "scsi.status": "0x%02x" % p[11]}
    if flags & 0x0E:
        found["fcp.resid"] = str(number(p[12:16]))
    if flags & 0x02:
        found["fcp.snslen"] = str(number(p[16:20]))
        found.update(sense(p[24:24 + number(p[16:20])]))
    if flags & 0x01:
        found.update({"fcp.rsplen": str(number(p[20:24])), "fcp.rspcode": "0x%02x" % p[27]})
    return found


def fields(f):
    """All of a frame of the drive, or of data of the host, which has a header alone."""
    found = header(f)
    if f[8] == 0x01:
        found.update(service(f[24:]))
    elif f[8] == 0x00:
        found.update(aborted(f))
    elif f[0] == 0x05:  # 02, 2: "12 bytes: offset, burst, zero"
        found.update({"fcp.data_ro": str(number(f[24:28])), "fcp.burstlen": str(number(f[28:32]))})
    elif f[0] == 0x07:
        found.update(response(f[24:]))
    return found


def made(f, command):
    """The iSCSI form of made data or of a response, against its command."""
    p = f[24:len(f) - f[11] % 4]
    if f[0] == 0x07:
        found = {"iscsi.scsiresponse.status": "0x%02x" % p[11], "iscsi.scsiresponse.residualcount": str(number(p[12:16]))}
        return dict(found, **sense(p[24:42])) if p[10] & 0x02 else found
    if command[36] == 0x12 and len(p) == 36:  # "00 00 02 02 1F 00 00 02 and identity, 7Fh first for another LUN"
        return {"scsi.inquiry.peripheral": "0x%02x" % p[0], "scsi.inquiry.rmbflags": "0x%02x" % p[1], "scsi.inquiry.version": "0x%02x" % p[2],
                "scsi.inquiry.acaflags": "0x%02x" % p[3], "scsi.inquiry.add_len": str(p[4]), "scsi.inquiry.sccsflags": "0x%02x" % p[5],
                "scsi.inquiry.bqueflags": "0x%02x" % p[6], "scsi.inquiry.reladrflags": "0x%02x" % p[7], "scsi.inquiry.vendor_id": p[8:16].decode(),
                "scsi.inquiry.product_id": p[16:32].decode(), "scsi.inquiry.product_rev": p[32:36].decode()}
    if command[36] == 0x25 and len(p) == 8:  # "8 (last address, 512)"
        return {"scsi_sbc.returned_lba": str(number(p[:4])), "scsi_sbc.blocksize": str(number(p[4:]))}
    return sense(p) if command[36] == 0x03 and len(p) == 18 else {}
