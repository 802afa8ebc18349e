#!/usr/bin/env python3
"""Writes a stream of requests to standard output, for measurements and for the expected bytes of tests.

Usage: stream.py projects COUNT          creations of the projects p1 to pCOUNT
       stream.py gets COUNT              COUNT times GET /
       stream.py instances COUNT SEED    the stream that the crate workload makes of SEED and COUNT
       stream.py spread-projects FIRST LAST          creations of the projects of the numbers FIRST to LAST
       stream.py profiles PROJECT FIRST LAST         creations of the profiles of these numbers in PROJECT
       stream.py get-profiles PROJECT ROWS COUNT     COUNT times the GET of a profile of a number from 1 to ROWS
       stream.py put-profiles PROJECT ROWS COUNT     COUNT times the PUT of one
       stream.py patch-projects ROWS COUNT           COUNT times the PATCH of a project of a number from 1 to ROWS
       stream.py move-projects FIRST LAST            renames of the projects of these numbers, and back again
       stream.py delete-projects FIRST LAST          deletions of the projects of these numbers
       stream.py networks FIRST LAST                 creations of the networks of these numbers
       stream.py pools FIRST LAST                    creations of the storage pools of these numbers
       stream.py volumes POOL FIRST LAST             creations of the volumes of these numbers in POOL
       stream.py users NETWORK POOL FIRST LAST       creations of profiles with a nic on NETWORK and a root disk in POOL
       stream.py get-rows LIST LETTER ROWS COUNT     COUNT times the GET of a row of LIST, of a number from 1 to ROWS
       stream.py put-rows LIST LETTER ROWS COUNT     COUNT times the PUT of one
       stream.py move-rows LIST LETTER FIRST LAST    renames of the rows of these numbers, and back again
       stream.py delete-rows LIST LETTER FIRST LAST  deletions of the rows of these numbers
       stream.py tenant PROJECT [limits]             a project with a pool and a root disk in its profile `default`, and with limits
                                                     on all that instances have, where the word `limits` stands
       stream.py creations PROJECT FIRST LAST        creations of the instances of these numbers in PROJECT, each with settings
       stream.py waits FIRST LAST                    waits for the operations of these numbers, of the boot word 0
       stream.py made PROJECT FIRST LAST OPERATION   the same creations, each with a wait for its operation after it; the first
                                                     operation has the number OPERATION
       stream.py tenants FIRST LAST COUNT OPERATION  the tenants tFIRST to tLAST, with limits, each with COUNT such instances
       stream.py put-profile PROJECT COUNT           COUNT times the PUT of the profile `default`, with another description
       stream.py reads TARGET COUNT                  COUNT times the GET of TARGET
       stream.py name LETTER NUMBER                  the name of the row of a number: a project (p), a profile (a), a network
                                                     (n), a pool (s), a volume (v)

The names that `name` tells are in no order of their numbers, so a new row comes to stand anywhere among the others.
It shares no code with the programs: the rule of the kind `instances` is written here a second time, on whole numbers.
"""
import json
import sys


def request(method, target, body):
    head = f"{method} {target} HTTP/1.1\r\nHost: localhost\r\nContent-Length: {len(body)}\r\n\r\n"
    return (head + body).encode("ascii")


def compact(value):
    return json.dumps(value, sort_keys=True, separators=(",", ":"))


def projects(count):
    for number in range(1, count + 1):
        yield request("POST", "/1.0/projects", compact({"name": f"p{number}"}))


def name(letter, number):
    """Names that differ as their numbers do: the factor is odd."""
    return f"{letter}{number * 2654435761 % 2**32:08x}"


def spread_projects(first, last):
    for number in range(first, last + 1):
        yield request("POST", "/1.0/projects", compact({"name": name("p", number)}))


def reads(target, count):
    for _ in range(count):
        yield f"GET {target} HTTP/1.1\r\nHost: localhost\r\n\r\n".encode("ascii")


def gets(count):
    return reads("/", count)


def content(cpus):
    config = {"limits.cpu": str(cpus), "limits.memory": "1GiB"}
    device = {"path": "/mnt", "source": "/srv", "type": "disk"}
    return {"config": config, "description": "a profile", "devices": {"data": device}}


def profiles(project, first, last):
    for number in range(first, last + 1):
        body = {"name": name("a", number), **content(1 + number % 8)}
        yield request("POST", f"/1.0/profiles?project={project}", compact(body))


def spread(rows, count):
    """Numbers from 1 to rows, as far apart as the steps of a prime leave them."""
    return (1 + step * 7919 % rows for step in range(count))


def get_profiles(project, rows, count):
    for number in spread(rows, count):
        yield from reads(f"/1.0/profiles/{name('a', number)}?project={project}", 1)


def put_profiles(project, rows, count):
    for step, number in enumerate(spread(rows, count)):
        target = f"/1.0/profiles/{name('a', number)}?project={project}"
        yield request("PUT", target, compact(content(1 + step % 16)))


def patch_projects(rows, count):
    for step, number in enumerate(spread(rows, count)):
        body = compact({"config": {"limits.cpu": str(1 + step % 16), "user.step": str(step)}})
        yield request("PATCH", f"/1.0/projects/{name('p', number)}", body)


def move_projects(first, last):
    for number in range(first, last + 1):
        old, new = name("p", number), name("q", number)
        for here, there in ((old, new), (new, old)):
            yield request("POST", f"/1.0/projects/{here}", compact({"name": there}))


def delete_projects(first, last):
    for number in range(first, last + 1):
        yield request("DELETE", f"/1.0/projects/{name('p', number)}", "")


def networks(first, last):
    for number in range(first, last + 1):
        config = {"bridge.mtu": str(1400 + number % 100), "ipv4.address": f"10.{number % 256}.0.1/24"}
        body = {"config": config, "description": "a network", "name": name("n", number)}
        yield request("POST", "/1.0/networks", compact(body))


def pools(first, last):
    for number in range(first, last + 1):
        yield request("POST", "/1.0/storage-pools", compact({"driver": "dir", "name": name("s", number)}))


def volumes(pool, first, last):
    for number in range(first, last + 1):
        config = {"size": f"{1 + number % 8}GiB", "user.number": str(number)}
        body = {"config": config, "description": "a volume", "name": name("v", number)}
        yield request("POST", f"/1.0/storage-pools/{pool}/volumes/custom", compact(body))


def users(network, pool, first, last):
    nic = {"network": network, "type": "nic"}
    root = {"path": "/", "pool": pool, "type": "disk"}
    for number in range(first, last + 1):
        body = {"devices": {"eth0": nic, "root": root}, "name": name("a", number)}
        yield request("POST", "/1.0/profiles", compact(body))


def get_rows(path, letter, rows, count):
    for number in spread(rows, count):
        yield from reads(f"{path}/{name(letter, number)}", 1)


def put_rows(path, letter, rows, count):
    for step, number in enumerate(spread(rows, count)):
        body = compact({"config": {"user.step": str(step)}, "description": "changed"})
        yield request("PUT", f"{path}/{name(letter, number)}", body)


def move_rows(path, letter, first, last):
    for number in range(first, last + 1):
        old, new = name(letter, number), name("z", number)
        for here, there in ((old, new), (new, old)):
            yield request("POST", f"{path}/{here}", compact({"name": there}))


def delete_rows(path, letter, first, last):
    for number in range(first, last + 1):
        yield request("DELETE", f"{path}/{name(letter, number)}", "")


LIMITS = {
    "limits.cpu": "1000000",
    "limits.disk": "1000TiB",
    "limits.instances": "100000",
    "limits.memory": "1000TiB",
    "limits.processes": "100000000",
}


def tenant(project, *limits):
    yield request("POST", "/1.0/storage-pools", compact({"driver": "dir", "name": f"pool-{project}"}))
    config = {"restricted": "true", **LIMITS} if limits else {}
    yield request("POST", "/1.0/projects", compact({"config": config, "name": project}))
    yield from put_profile(project, 1)


def put_profile(project, count, pool=None):
    root = {"path": "/", "pool": pool or f"pool-{project}", "size": "10GiB", "type": "disk"}
    for number in range(count):
        body = {"description": f"the {number}th", "devices": {"root": root}}
        yield request("PUT", f"/1.0/profiles/default?project={project}", compact(body))


def creation(project, number):
    config = {"limits.cpu": str(1 + number % 4), "limits.memory": "512MiB", "limits.processes": "500"}
    body = {"config": config, "name": name("i", number), "source": {"type": "none"}}
    return request("POST", f"/1.0/instances?project={project}", compact(body))


def wait(number):
    return f"GET /1.0/operations/00000000-0000-8000-8000-{number:012x}/wait HTTP/1.1\r\nHost: localhost\r\n\r\n".encode("ascii")


def creations(project, first, last):
    for number in range(first, last + 1):
        yield creation(project, number)


def waits(first, last):
    for number in range(first, last + 1):
        yield wait(number)


def made(project, first, last, operation):
    for number in range(first, last + 1):
        yield creation(project, number)
        yield wait(operation + number - first)


def tenants(first, last, count, operation):
    """All have their root disks in one pool, which the first of them makes: there may be 64 pools."""
    for number in range(first, last + 1):
        project, pool = f"t{number}", "pool-t1"
        if number == 1:
            yield request("POST", "/1.0/storage-pools", compact({"driver": "dir", "name": pool}))
        yield request("POST", "/1.0/projects", compact({"config": {"restricted": "true", **LIMITS}, "name": project}))
        yield from put_profile(project, 1, pool)
        yield from made(project, 1, count, operation + count * (number - first))


def numbers(seed):
    while True:
        seed = (6364136223846793005 * seed + 1442695040888963407) % 2**64
        yield seed


def instances(count, seed):
    yield request("POST", "/1.0/storage-pools", compact({"driver": "dir", "name": "pool0"}))
    limits = {
        "limits.cpu": "1000",
        "limits.disk": "1TiB",
        "limits.instances": "32",
        "limits.memory": "1TiB",
        "limits.processes": "100000",
        "restricted": "true",
    }
    yield request("POST", "/1.0/projects", compact({"config": limits, "name": "lab"}))
    root = {"path": "/", "pool": "pool0", "size": "10GiB", "type": "disk"}
    yield request("PUT", "/1.0/profiles/default?project=lab", compact({"devices": {"root": root}}))
    for number, drawn in zip(range(1, count + 1), numbers(seed)):
        config = {
            "limits.cpu": str(1 + drawn // 2**62),
            "limits.memory": f"{64 * (1 + drawn // 2**58 % 16)}MiB",
            "limits.processes": str(100 * (1 + drawn // 2**54 % 10)),
        }
        body = {"config": config, "name": f"i{number}", "source": {"type": "none"}}
        yield request("POST", "/1.0/instances?project=lab", compact(body))


KINDS = {
    "projects": (projects, (int,)),
    "gets": (gets, (int,)),
    "instances": (instances, (int, int)),
    "spread-projects": (spread_projects, (int, int)),
    "profiles": (profiles, (str, int, int)),
    "get-profiles": (get_profiles, (str, int, int)),
    "put-profiles": (put_profiles, (str, int, int)),
    "patch-projects": (patch_projects, (int, int)),
    "move-projects": (move_projects, (int, int)),
    "delete-projects": (delete_projects, (int, int)),
    "networks": (networks, (int, int)),
    "pools": (pools, (int, int)),
    "volumes": (volumes, (str, int, int)),
    "users": (users, (str, str, int, int)),
    "get-rows": (get_rows, (str, str, int, int)),
    "put-rows": (put_rows, (str, str, int, int)),
    "move-rows": (move_rows, (str, str, int, int)),
    "delete-rows": (delete_rows, (str, str, int, int)),
    "tenant": (tenant, (str, str)),
    "creations": (creations, (str, int, int)),
    "waits": (waits, (int, int)),
    "made": (made, (str, int, int, int)),
    "tenants": (tenants, (int, int, int, int)),
    "put-profile": (put_profile, (str, int)),
    "reads": (reads, (str, int)),
    "name": (lambda letter, number: [name(letter, number).encode("ascii")], (str, int)),
}


def main(words):
    make, kinds = KINDS.get(words[0] if words else "", (None, ()))
    optional = 1 if make is tenant else 0
    if make is None or not len(kinds) - optional <= len(words) - 1 <= len(kinds):
        sys.exit(__doc__)
    for piece in make(*(kind(word) for kind, word in zip(kinds, words[1:]))):
        sys.stdout.buffer.write(piece)


if __name__ == "__main__":
    main(sys.argv[1:])
