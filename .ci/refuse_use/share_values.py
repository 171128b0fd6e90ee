"""Values of what installed texts declare that no RFC's text declares, made by hand by the protocols' own texts: of each
argument and result its bytes (RFC 4506) and its JSON (docs/FORMATS.md section 5), with the fields in their order.

Two fields that have as many bytes have other names, and what they hold differs where it can. So fields that have
changed places are another JSON, and so is a number whose sign is read otherwise.
"""
from refuse_use.made_values import both, data, fixed, flag, linked, long, member, number, text

COOKIE, FILE, OWNER = data(b"\x01\x02"), data(b"handle"), data(b"own")
DIRECTION = {"caller_name": text("box"), "fh": FILE, "oh": OWNER}


class LockManager:
    """The values of a version, whose ranges have such numbers, and whose statuses begin so."""

    def __init__(self, size, prefix):
        ends = {"l_offset": size(2**31 + 1), "l_len": size(2**32 - 1)}
        self.lock = both(**DIRECTION, svid=number(-7), **ends)
        self.holder = both(exclusive=flag(True), svid=number(-8), oh=OWNER, **ends)
        self.prefix = prefix

    def status(self, it, name):
        return member(it, self.prefix + name)

    def arguments(self):
        """Of TEST, LOCK, CANCEL, UNLOCK and GRANTED."""
        test = both(cookie=COOKIE, exclusive=flag(True), alock=self.lock)
        cancel = both(cookie=COOKIE, block=flag(True), exclusive=flag(False), alock=self.lock)
        return [test, self.locking(), cancel, both(cookie=COOKIE, alock=self.lock), test]

    def locking(self):
        asked = {"block": flag(True), "exclusive": flag(False), "alock": self.lock, "reclaim": flag(True)}
        return both(cookie=COOKIE, **asked, state=number(-9))

    def results(self):
        held = both(case=self.status(1, "DENIED"), holder=self.holder)
        done = both(cookie=COOKIE, stat=both(stat=self.status(3, "BLOCKED")))
        return [both(cookie=COOKIE, test_stat=held), *[done] * 4]

    def values(self, version):
        """What is asked in one call and its reply, and in two calls: of each the question, and then what came of it."""
        for place, (asked, told) in enumerate(zip(self.arguments(), self.results()), 1):
            yield f"{version}.{place}.1", asked
            yield f"{version}.{place}.result", told
            yield f"{version}.{place + 5}.1", asked
            yield f"{version}.{place + 10}.1", told

    def of_shares(self, version):
        """SHARE, UNSHARE, NM_LOCK and FREE_ALL."""
        share = both(**DIRECTION, mode=member(2, "FSM_DW"), access=member(3, "FSA_RW"))
        told = both(cookie=COOKIE, stat=self.status(4, "DENIED_GRACE_PERIOD"), sequence=number(-5))
        for procedure in (20, 21):
            yield f"{version}.{procedure}.1", both(cookie=COOKIE, share=share, reclaim=flag(True))
            yield f"{version}.{procedure}.result", told
        yield f"{version}.22.1", self.locking()
        yield f"{version}.22.result", self.results()[1]
        yield f"{version}.23.1", both(name=text("gone"), state=number(-6))


def of_nlm():
    """The lock manager: ranges of 32 bits and of 64."""
    narrow, wide = LockManager(number, "LCK_"), LockManager(long, "NLM4_")
    of_narrow = [*narrow.values(1), *narrow.values(3), *narrow.of_shares(3)]
    return [*of_narrow, *wide.values(4), *wide.of_shares(4)]


MINE = both(my_name=text("me"), my_prog=number(-1), my_vers=number(-2), my_proc=number(-3))
WATCHED = both(mon_name=text("host"), id=MINE)
NSM = [
    ("1.1.1", both(mon_name=text("host"))),
    ("1.1.result", both(res_stat=member(1, "STAT_FAIL"), state=number(-4))),
    ("1.2.1", both(id=WATCHED, priv=fixed(b"0123456789abcdef"))),
    ("1.2.result", both(res_stat=member(0, "STAT_SUCC"), state=number(-5))),
    ("1.3.1", WATCHED),
    ("1.3.result", both(state=number(-6))),
    ("1.4.1", MINE),
    ("1.4.result", both(state=number(-7))),
    ("1.6.1", both(mon_name=text("host"), state=number(-8))),
]
ADDRESS = both(case=number(1), ip_addr=both(net=number(10), host=number(20), lh=number(30), impno=number(40)))
NAME = text("box")
BOOTPARAM = [
    ("1.1.1", both(client_address=ADDRESS)),
    ("1.1.result", both(client_name=NAME, domain_name=text("dom"), router_address=ADDRESS)),
    ("1.2.1", both(client_name=NAME, file_id=text("root"))),
    ("1.2.result", both(server_name=NAME, server_address=ADDRESS, server_path=text("/exp"))),
]
DOMAIN, MAP, VALUE, KEY = text("dom"), text("map"), data(b"value"), data(b"key")
OF_MAP = both(domain=DOMAIN, map=MAP)
OF_KEY = both(domain=DOMAIN, map=MAP, key=KEY)
ROW = both(stat=member(2, "YP_NOMORE"), val=VALUE, key=KEY)
LAST = both(stat=member(-6, "YP_YPERR"), val=KEY, key=VALUE)
MOVED = both(domain=DOMAIN, map=MAP, ordernum=number(2**32 - 1), peer=text("peer"))
NUMBERED = {"transid": number(2**32 - 2), "prog": number(2**32 - 3), "port": number(2**32 - 4)}
YP = [
    ("2.1.1", DOMAIN),
    ("2.1.result", flag(True)),
    ("2.2.1", DOMAIN),
    ("2.2.result", flag(False)),
    ("2.3.1", OF_KEY),
    ("2.3.result", both(stat=member(1, "YP_TRUE"), val=VALUE)),
    ("2.4.1", OF_KEY),
    ("2.4.result", ROW),
    ("2.5.1", OF_KEY),
    ("2.5.result", LAST),
    ("2.6.1", both(map_parms=MOVED, **NUMBERED)),
    ("2.6.result", both(transid=number(2**32 - 5), xfrstat=member(-14, "YPXFR_REFUSED"))),
    ("2.8.1", OF_MAP),
    ("2.8.result", linked("more", {"val": ROW}, {"val": LAST})),
    ("2.9.1", OF_MAP),
    ("2.9.result", both(stat=member(-1, "YP_NOMAP"), peer=text("peer"))),
    ("2.10.1", OF_MAP),
    ("2.10.result", both(stat=member(-8, "YP_VERS"), ordernum=number(2**32 - 6))),
    ("2.11.1", DOMAIN),
    ("2.11.result", both(stat=member(1, "YP_TRUE"), maps=linked("next", {"map": MAP}, {"map": text("other")}))),
]
BOUND = both(ypbind_binding_addr=fixed(b"\x7f\0\0\x01"), ypbind_binding_port=fixed(b"\x08\x01"))
YPBIND = [
    ("2.1.1", DOMAIN),
    ("2.1.result", both(case=member(1, "YPBIND_SUCC_VAL"), ypbind_bindinfo=BOUND)),
    ("2.1.result", both(case=member(2, "YPBIND_FAIL_VAL"), ypbind_error=number(2**32 - 1))),
    ("2.2.1", both(ypsetdom_domain=DOMAIN, ypsetdom_binding=BOUND, ypsetdom_vers=number(2**32 - 2))),
]
# By the name of a text: of each argument and result, behind the program's number, a value.
VALUES = {"nlm": of_nlm(), "nsm": NSM, "bootparam": BOOTPARAM, "yp": YP, "ypbind": YPBIND}
