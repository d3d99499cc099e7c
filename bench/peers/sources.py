"""Gets the code of uIP and of lwIP as Debian sources, and makes what both need to compile: copies of uIP's files without IPv6, and the
headers of a C library that a firmware has not. Everything is written below bench/out/peers; nothing of it is committed.
"""
import glob
import os
import re
import subprocess
import sys

HERE = os.path.dirname(os.path.abspath(__file__))
OUT = os.path.join(HERE, "..", "out", "peers")
SUITE, MIRROR = "trixie", "http://deb.debian.org/debian"
PACKAGES = {"lwip": "lwip", "uip": "open-iscsi"}    # open-iscsi has uIP 1.0 with additions, in iscsiuio/src/uip

# A list of sources of its own: the system's apt is not changed.
APT = """Dir::Etc::SourceList "/dev/null";
Dir::Etc::SourceParts "{0}/parts";
Dir::State::Lists "{0}/lists";
Dir::Cache "{0}/cache";
APT::Sandbox::User "{1}";
"""
LIST = f"Types: deb-src\nURIs: {MIRROR}\nSuites: {SUITE}\nComponents: main\nSigned-By: /usr/share/keyrings/debian-archive-keyring.gpg\n"

# What uIP has there beyond uIP 1.0 and this job, and no option leaves out: IPv6 and its neighbours, UDP, connections that it opens. Each
# edit is one of sed, with a line that comes before the text.
EDITS = {
    "uip.c": [("/^static int is_ipv6/,/^}/d", "#define is_ipv6(stack) 0"), ("s/goto udp_input/goto drop/", ""),
              ("s/flag == UIP_NDP_TIMER/0/", "")],
    "uip.h": [("s/UIP_NEIGHBOR_ENTRIES 8/UIP_NEIGHBOR_ENTRIES 1/", "")],
    "uipopt.h": [("s/UIP_ACTIVE_OPEN 1/UIP_ACTIVE_OPEN 0/", "")],
}

# What uIP includes and does not need here.
UIP_STUBS = {
    "nic.h": "typedef struct nic nic_t;", "ping.h": "#define process_icmp_packet(header, stack) 0",
    "clock-arch.h": "typedef int clock_time_t;", "dhcpc.h": "#define UIP_UDP_APPCALL(stack)",
    "brcm_iscsi.h": "struct uip_stack;\nvoid httpd_appcall(struct uip_stack *);\n#define UIP_APPCALL httpd_appcall",
    "logger.h": "".join(f"#define ILOG_{word}(...) do {{}} while (0)\n" for word in ("PACKET", "DEBUG", "INFO", "WARN", "ERR")),
    "ipv6_ndpc.h": "struct ndpc_state;\n#define UIP_NDP_CALL(stack)\n#define ndpc_exit(state)",
    "pthread.h": "#define pthread_mutex_t char\n"
                 + "".join(f"#define pthread_mutex_{word}(lock, ...)\n" for word in ("init", "lock", "unlock")),
    "netinet/ip6.h": "#include <netinet/in.h>\n"
                     "struct ip6_hdr { uint8_t ip6_vfc, ip6_nxt; uint16_t ip6_plen; struct in6_addr ip6_src, ip6_dst; };",
    "netinet/icmp6.h": "",
    "netinet/in.h": "#include <stdint.h>\nstruct in6_addr { uint8_t s6_addr[16]; };\nenum { IPPROTO_ICMPV6 = 58 };\n"
                    "static inline uint16_t ntohs(uint16_t n) { return __builtin_bswap16(n); }\n#define htons ntohs\n"
                    "static inline uint32_t ntohl(uint32_t n) { return __builtin_bswap32(n); }\n#define htonl ntohl",
    "arpa/inet.h": "",
}

# The headers of a C library, for a firmware: what examples/board/runtime.c and glue/library.c define.
LIBRARY_STUBS = {
    "string.h": "#include <stddef.h>\nvoid *memcpy(void *, const void *, size_t);\nvoid *memmove(void *, const void *, size_t);\n"
                "void *memset(void *, int, size_t);\nint memcmp(const void *, const void *, size_t);\nsize_t strlen(const char *);\n"
                "int strcmp(const char *, const char *);\nint strncmp(const char *, const char *, size_t);\n"
                "char *strchr(const char *, int);",
    "stdlib.h": "#include <stddef.h>\nint atoi(const char *);\nvoid free(void *);", "sys/types.h": "#include <stdint.h>",
    "time.h": "typedef long time_t;",
    "stdio.h": "", "errno.h": "", "limits.h": "#define INT_MAX __INT_MAX__",
}


def run(words, **more):
    done = subprocess.run(words, stdout=subprocess.PIPE, stderr=subprocess.STDOUT, text=True, check=False, **more)
    if done.returncode:
        sys.exit(f"peers: {' '.join(words)} ended with status {done.returncode}:\n{done.stdout[-2000:]}")
    return done.stdout


def write(path, text):
    os.makedirs(os.path.dirname(path), exist_ok=True)
    with open(path, "w", encoding="utf-8") as file:
        file.write(text)


def fetch():
    """Gets both packages, unless they are there. Returns the folder of each, and its version."""
    apt, found = os.path.join(OUT, "apt"), {}
    for folder in ("parts", "lists/partial", "cache/archives/partial", "sources"):
        os.makedirs(os.path.join(apt, folder), exist_ok=True)
    user = "root" if os.geteuid() == 0 else ""
    write(os.path.join(apt, "apt.conf"), APT.format(apt, user))
    write(os.path.join(apt, "parts", "peers.sources"), LIST)
    environment = {**os.environ, "APT_CONFIG": os.path.join(apt, "apt.conf")}
    sources = os.path.join(apt, "sources")
    for name, package in PACKAGES.items():
        if not glob.glob(os.path.join(sources, package + "_*.dsc")):
            run(["apt-get", "update"], env=environment)
            run(["apt-get", "source", "--download-only", package], env=environment, cwd=sources)
        description = glob.glob(os.path.join(sources, package + "_*.dsc"))[0]
        folder = os.path.join(sources, package)
        if not os.path.isdir(folder):
            run(["dpkg-source", "--no-check", "-x", description, folder])
        with open(description, encoding="utf-8") as file:
            found[name] = folder, re.search(r"^Version: (.*)$", file.read(), re.M)[1]
    return found


def make_uip(folder):
    """The folders of uIP's files: without IPv6 and so on, and as they are in the package."""
    whole, slim = os.path.join(folder, "iscsiuio", "src", "uip"), os.path.join(OUT, "uip")
    os.makedirs(slim, exist_ok=True)
    for name in ("uip.c", "uip.h", "uipopt.h", "uip_arch.h", "uip_eth.h", "uip-neighbor.h", "debug.h"):
        words = [word for edit, _ in EDITS.get(name, []) for word in ("-e", edit)] or ["-e", ""]
        text = run(["sed", *words, os.path.join(whole, name)])
        with open(os.path.join(whole, name), encoding="utf-8") as file:
            before = file.read()
        if (text == before) != (name not in EDITS):
            sys.exit(f"peers: the edits of {name} fit another text")
        write(os.path.join(slim, name), "".join(line + "\n" for _, line in EDITS.get(name, []) if line) + text)
    return {"uip": slim, "uip_whole": whole}


def make_stubs():
    for folder, stubs in (("uip_stubs", UIP_STUBS), ("library_stubs", LIBRARY_STUBS)):
        for name, text in stubs.items():
            guard = "PEERS_" + re.sub(r"\W", "_", name).upper()
            write(os.path.join(OUT, folder, name), f"#ifndef {guard}\n#define {guard}\n{text}\n#endif\n")
    return os.path.join(OUT, "uip_stubs"), os.path.join(OUT, "library_stubs")
