"""The holes of Incus 6.0.4, one function each: the same requests for both servers, and what came of them.

A function returns whether the hole is open, and what was seen, as one line. `None` in place of whether it is open says that the server does
not offer what the hole is about.
"""
import http.client
import signal
import threading
import time
from collections import Counter

from peer_servers import (
    Link, Listener, Wrong, add_project, at_once, configure, counted, create, instance, instances, root_disk, rows, summed)


def creations(server, project, count, config=None):
    return at_once(server, [("POST", f"/1.0/instances?project={project}", instance(f"n{each}", config)) for each in range(count)])


def creations_at_once(server):
    """24 creations at once, `limits.instances` 5"""
    add_project(server, "at-once", {"limits.instances": "5"})
    ends = creations(server, "at-once", 24)
    made = len(instances(server, "at-once"))
    return made > 5, f"{made} made where 5 may be; {counted(ends)}"


def profile_beside_creations(server):
    """PUT of a profile from 1 to 2 CPUs beside 4 creations, `limits.cpu` 8, 6 rounds"""
    over, most = 0, 0
    for number in range(6):
        lab = f"beside{number}"
        add_project(server, lab, {"limits.cpu": "8"}, {"limits.cpu": "1"})
        for each in range(4):
            create(server, lab, f"old{each}")
        raised = ("PUT", f"/1.0/profiles/default?project={lab}", {"config": {"limits.cpu": "2"}, "devices": root_disk()})
        at_once(server, [raised] + [("POST", f"/1.0/instances?project={lab}", instance(f"new{each}")) for each in range(4)])
        used = summed(server, lab, "limits.cpu")
        over, most = over + (used > 8), max(most, used)
    return over > 0, f"up to {most} of 8 CPUs; above the limit in {over} of 6 rounds"


def shared_profile(server):
    """a profile of `default` raised from 1 to 16 CPUs, which 4 instances of a project with `features.profiles` false use, `limits.cpu` 4"""
    server.must("POST", "/1.0/profiles", {"name": "shared", "config": {"limits.cpu": "1"}, "devices": root_disk()})
    server.must("POST", "/1.0/projects", {"name": "guest", "config": {"features.profiles": "false", "limits.cpu": "4"}})
    for each in range(4):
        create(server, "guest", f"i{each}", profiles=["shared"])
    end = server.do("PUT", "/1.0/profiles/shared", {"config": {"limits.cpu": "16"}, "devices": root_disk()})
    used = summed(server, "guest", "limits.cpu")
    return used > 4, f"{end.in_short()}; {used} of 4 CPUs"


def restricted_late(server):
    """`restricted` switched on over a privileged container"""
    add_project(server, "late")
    create(server, "late", "i", {"security.privileged": "true"})
    end = configure(server, "late", restricted="true")
    after = server.do("POST", "/1.0/instances?project=late", instance("other"))
    return end.is_well, f"{end.in_short()}; then a harmless creation: {after.in_short()}"


def restore_past_policy(server):
    """a restore of a snapshot with more CPUs than the limit leaves, and of one with nesting in a restricted project"""
    add_project(server, "back", {"limits.cpu": "4"})
    create(server, "back", "i", {"limits.cpu": "4"})
    server.must("POST", "/1.0/instances/i/snapshots?project=back", {"name": "s"})
    server.must("PATCH", "/1.0/instances/i?project=back", {"config": {"limits.cpu": "1"}})
    create(server, "back", "j", {"limits.cpu": "3"})
    more = server.do("PUT", "/1.0/instances/i?project=back", {"restore": "s"})
    add_project(server, "nest")
    create(server, "nest", "i", {"security.nesting": "true"})
    server.must("POST", "/1.0/instances/i/snapshots?project=nest", {"name": "s"})
    server.must("PATCH", "/1.0/instances/i?project=nest", {"config": {"security.nesting": "false"}})
    # In Incus an instance keeps such a key out of a restricted project only where it is not there at all.
    configure(server, "nest", restricted="true", restricted__snapshots="allow")
    nested = server.do("PUT", "/1.0/instances/i?project=nest", {"restore": "s"})
    now = rows(server, "/1.0/instances/i?project=nest")["config"].get("security.nesting")
    used = summed(server, "back", "limits.cpu")
    is_open = used > 4 or now == "true"
    return is_open, f"CPUs: {more.in_short()}, {used} of 4; nesting: {nested.in_short()}, the instance has it: {'yes' if now == 'true' else 'no'}"


def forbidden_profile(server):
    """creation of a profile with a forbidden key in a restricted project"""
    add_project(server, "forbid", {"restricted": "true"})
    end = server.do("POST", "/1.0/profiles?project=forbid", {"name": "bad", "config": {"security.privileged": "true"}})
    after = server.do("POST", "/1.0/instances?project=forbid", instance("i"))
    return end.is_well, f"{end.in_short()}; then a harmless creation: {after.in_short()}"


VOLUMES = "/1.0/storage-pools/p0/volumes/custom"


def volume_patch(server):
    """PATCH of a volume from 1 to 5 GiB, `limits.disk` 4 GiB"""
    add_project(server, "patch", {"limits.disk": "4GiB"}, size="1GiB")
    server.must("POST", f"{VOLUMES}?project=patch", {"name": "v", "config": {"size": "1GiB"}})
    end = server.do("PATCH", f"{VOLUMES}/v?project=patch", {"config": {"size": "5GiB"}})
    size = rows(server, f"{VOLUMES}/v?project=patch")["config"]["size"]
    return size != "1GiB", f"{end.in_short()}; the volume has {size}"


def sums_that_wrap(server):
    """two instances with disks of 5 EiB, `limits.disk` 2^63 - 1"""
    add_project(server, "wrap", {"limits.disk": str(2 ** 63 - 1)}, size="5EiB")
    ends = [server.do("POST", "/1.0/instances?project=wrap", instance(name)) for name in "ab"]
    return ends[1].is_well, f"the first {ends[0].in_short()}, the second {ends[1].in_short()}"


def demanded_key(server):
    """`restricted.containers.privilege` `isolated`, and a container without `security.idmap.isolated`"""
    add_project(server, "demand", {"restricted": "true", "restricted.containers.privilege": "isolated"})
    end = server.do("POST", "/1.0/instances?project=demand", instance("i"))
    return end.is_well, end.in_short()


def project_patch(server):
    """PATCH of one key of a project"""
    add_project(server, "keep", {"limits.cpu": "4", "user.owner": "ops"})
    before = {*rows(server, "/1.0/projects/keep")["config"]}
    end = server.do("PATCH", "/1.0/projects/keep", {"config": {"limits.cpu": "5"}})
    lost = before - {*rows(server, "/1.0/projects/keep")["config"]}
    return bool(lost), f"{end.in_short()}; {len(lost)} of {len(before) - 1} other keys lost"


def notice_of_a_refusal(server):
    """a refused PUT of a project, and what listeners get"""
    add_project(server, "told", {"limits.cpu": "4"})
    create(server, "told", "i", {"limits.cpu": "4"})
    listener = Listener(server, "?project=told&type=lifecycle")
    time.sleep(0.3)
    end = configure(server, "told", limits__cpu="1")
    time.sleep(1)
    told = [event["metadata"]["action"] for event in listener.events]
    listener.close()
    if end.is_well:
        raise Wrong("the limit was lowered below the use")
    return "project-updated" in told, f"{end.status}; listeners get {', '.join(told) or 'nothing'}"


class Creator(threading.Thread):
    """Creates instances one after the other until the server is gone, and notes which of them were answered as done."""

    def __init__(self, server, number):
        super().__init__()
        self.server, self.number, self.done = server, number, []

    def run(self):
        try:
            with Link(self.server) as link:
                for each in range(10 ** 6):
                    name = f"n{self.number}-{each}"
                    reply = link.ask("POST", "/1.0/instances?project=killed", instance(name))
                    if not reply.is_well:
                        continue
                    if link.end(reply).is_well:
                        self.done.append(name)
        except (OSError, ValueError, http.client.HTTPException):
            return  # the server is gone


def killed(server):
    """SIGKILL beside 8 clients that create, 4 rounds"""
    add_project(server, "killed")
    done, missing, bare, rows_there = 0, 0, 0, 0
    for number in range(4):
        clients = [Creator(server, f"{number}-{each}") for each in range(8)]
        for client in clients:
            client.start()
        time.sleep(1)
        server.end(signal.SIGKILL)
        for client in clients:
            client.join()
        server.start()
        there = {row["name"] for row in instances(server, "killed")}
        done += sum(len(client.done) for client in clients)
        missing += sum(name not in there for client in clients for name in client.done)
        bare += sum(not server.has_storage("killed", name) for name in there if name.startswith(f"n{number}-"))
        rows_there += sum(name.startswith(f"n{number}-") for name in there)
    without = f"{bare} of them without storage" if server.name == "Incus" else "each put with the end of its operation"
    return bare > 0 or missing > 0, f"{missing} of {done} that were done are lost; {rows_there} rows, {without}"


def profile_deleted(server):
    """DELETE of a profile beside a creation that names it, 72 rounds"""
    add_project(server, "gone")
    failed, accepted = 0, 0
    for number in range(72):
        name = f"p{number}"
        server.must("POST", "/1.0/profiles?project=gone", {"name": name})
        made, _ = at_once_raw(server, [
            ("POST", "/1.0/instances?project=gone", instance(f"i{number}", profiles=["default", name])),
            ("DELETE", f"/1.0/profiles/{name}?project=gone")])
        accepted += made[0].status == 202
        failed += made[0].status == 202 and not made[1].is_well
    return failed > 0, f"{failed} of {accepted} accepted creations fail"


def at_once_raw(server, requests):
    """As `at_once`, but each end beside the reply before it."""
    gate, ends = threading.Barrier(len(requests)), [None] * len(requests)

    def send(place, words):
        with Link(server) as link:
            gate.wait()
            reply = link.ask(*words)
            ends[place] = (reply, link.end(reply))

    threads = [threading.Thread(target=send, args=each) for each in enumerate(requests)]
    for thread in threads:
        thread.start()
    for thread in threads:
        thread.join()
    return ends


def order_of_events(server):
    """the events of 384 creations by 16 clients"""
    add_project(server, "events")
    listener = Listener(server, "?project=events&type=operation")
    time.sleep(0.3)

    def make(number):
        with Link(server) as link:
            for each in range(24):
                link.do("POST", "/1.0/instances?project=events", instance(f"i{number}-{each}"))

    threads = [threading.Thread(target=make, args=(number,)) for number in range(16)]
    for thread in threads:
        thread.start()
    for thread in threads:
        thread.join()
    time.sleep(1)
    events = list(listener.events)
    listener.close()
    told = {}
    for event in events:
        told.setdefault(event["metadata"]["id"], []).append(event["metadata"]["status"])
    due = ["Pending", "Running", "Success"]
    wrong = sum(list(dict.fromkeys(each)) != due for each in told.values())
    back = sum(later["timestamp"] < earlier["timestamp"] for earlier, later in zip(events, events[1:]))
    numbers = [event.get("number", 0) for event in events]
    is_open = wrong > 0 or back > 0 or len(told) != 384
    counts = ", numbers rise" if numbers[0] and numbers == sorted({*numbers}) else ""
    return is_open, f"{wrong} of {len(told)} operations out of order; {back} of {len(events)} events earlier than the one before{counts}"


def pool_limit(server):
    """`limits.disk.pool.p0` 3 GiB alone, and volumes of 9 GiB in all"""
    reply = server.do("POST", "/1.0/projects", {"name": "pool", "config": {"limits.disk.pool.p0": "3GiB"}})
    if not reply.is_well:
        return None, f"the key is not offered: {reply.in_short()}"
    ends = [server.do("POST", f"{VOLUMES}?project=pool", {"name": f"v{each}", "config": {"size": "3GiB"}}) for each in range(3)]
    return ends[2].is_well, ", ".join(end.in_short() for end in ends)


def pool_limit_lowered(server):
    """the same limit lowered below the use"""
    reply = server.do("POST", "/1.0/projects", {"name": "pool-low", "config": {"limits.disk.pool.p0": "9GiB"}})
    if not reply.is_well:
        return None, f"the key is not offered: {reply.in_short()}"
    server.must("POST", f"{VOLUMES}?project=pool-low", {"name": "v", "config": {"size": "5GiB"}})
    end = configure(server, "pool-low", **{"limits__disk__pool__p0": "1GiB"})
    return end.is_well, end.in_short()


def interception(server):
    """`restricted.containers.interception`: `allow`, and the interception of mounts, which only `full` lets pass"""
    ends = []
    for number, word in enumerate(("allow", "full")):
        add_project(server, f"calls{number}", {"restricted": "true", "restricted.containers.interception": word})
        config = {"security.syscalls.intercept.mount": "true"}
        ends.append(server.do("POST", f"/1.0/instances?project=calls{number}", instance("i", config)))
    return ends[0].is_well or not ends[1].is_well, f"with `allow` {ends[0].in_short()}; with `full` {ends[1].in_short()}"


def volumes_at_once(server):
    """16 volumes of 1 GiB at once, `limits.disk` 5 GiB"""
    add_project(server, "volumes", {"limits.disk": "5GiB"}, size="1GiB")
    ends = at_once(server, [("POST", f"{VOLUMES}?project=volumes", {"name": f"v{each}", "config": {"size": "1GiB"}}) for each in range(16)])
    made = len(rows(server, f"{VOLUMES}?project=volumes"))
    return made > 5, f"{made} made where 5 may be; {counted(ends)}"


def patches_at_once(server):
    """4 PATCHes at once of instances from 1 to 5 CPUs, `limits.cpu` 8, 6 rounds"""
    over, most = 0, 0
    for number in range(6):
        lab = f"patches{number}"
        add_project(server, lab, {"limits.cpu": "8"})
        for each in range(4):
            create(server, lab, f"i{each}", {"limits.cpu": "1"})
        at_once(server, [("PATCH", f"/1.0/instances/i{each}?project={lab}", {"config": {"limits.cpu": "5"}}) for each in range(4)])
        used = summed(server, lab, "limits.cpu")
        over, most = over + (used > 8), max(most, used)
    return over > 0, f"up to {most} of 8 CPUs; above the limit in {over} of 6 rounds"


def limit_lowered(server):
    """`limits.instances` lowered to 2 beside 8 creations, 12 rounds"""
    over, most = 0, 0
    for number in range(12):
        lab = f"lower{number}"
        add_project(server, lab, {"limits.instances": "8"})
        row = rows(server, f"/1.0/projects/{lab}")
        put = ("PUT", f"/1.0/projects/{lab}", {"config": {**row["config"], "limits.instances": "2"}, "description": ""})
        ends = at_once(server, [("POST", f"/1.0/instances?project={lab}", instance(f"i{each}")) for each in range(4)] + [put]
                       + [("POST", f"/1.0/instances?project={lab}", instance(f"j{each}")) for each in range(4)])
        made = len(instances(server, lab))
        is_over = ends[4].is_well and made > 2
        over, most = over + is_over, max(most, made if is_over else 0)
    return over > 0, f"the limit and the use contradict each other in {over} of 12 rounds" + (f", up to {most} of 2" if over else "")


def same_etag(server):
    """8 PUTs of a project at once, each with one more key and the ETag of one read, 5 rounds"""
    well, there, has_etag = 0, 0, True
    for number in range(5):
        lab = f"etag{number}"
        server.must("POST", "/1.0/projects", {"name": lab})
        read = server.tagged(f"/1.0/projects/{lab}")
        has_etag = has_etag and read.etag is not None
        config = read.metadata["config"]
        ends = at_once(server, [("PUT", f"/1.0/projects/{lab}", {"config": {**config, f"user.k{each}": "x"}, "description": ""},
                                 {"If-Match": read.etag or "x"}) for each in range(8)])
        well += sum(end.is_well for end in ends)
        there += sum(key.startswith("user.k") for key in rows(server, f"/1.0/projects/{lab}")["config"])
    text = f"{well} of 40 are answered 200, and {there} of these changes are there"
    return (well > there, text) if has_etag else (None, f"ETag and `If-Match` are not offered: {text}")


def puts_of_a_profile(server):
    """8 PUTs at once of a profile that 10 instances use, 3 rounds"""
    add_project(server, "puts")
    for each in range(10):
        create(server, "puts", f"i{each}")
    ends, wrong = [], 0
    for number in range(3):
        asked = [("PUT", "/1.0/profiles/default?project=puts", {"config": {"user.by": f"{number}-{each}"}, "devices": root_disk()}) for each in range(8)]
        round_ends = at_once(server, asked)
        last = rows(server, "/1.0/profiles/default?project=puts")["config"].get("user.by")
        used = {row["expanded_config"].get("user.by") for row in instances(server, "puts")}
        wrong += used != {last}
        ends += round_ends
    refused = sum(not end.is_well for end in ends)
    return refused > 0 or wrong > 0, f"{counted(ends)}; instances that have another value than the profile: in {wrong} of 3 rounds"


def keys_named(server, requests):
    """Of equal requests which of these keys the refusal names, and how often each."""
    method, path, body, keys = requests
    found = Counter()
    for _ in range(40):
        reply = server.do(method, path, body)
        if reply.is_well:
            raise Wrong(f"{path} is not refused")
        text = str(reply.body)
        found[next((key for key in keys if key in text), "none of them")] += 1
    return found


def same_refusal(server):
    """40 equal requests that break three limits; four forbidden keys; two unknown keys and a bad value"""
    limits = {"limits.cpu": "1", "limits.memory": "1GiB", "limits.processes": "10"}
    add_project(server, "three", limits)
    add_project(server, "four", {"restricted": "true"})
    more = {"limits.cpu": "4", "limits.memory": "4GiB", "limits.processes": "100"}
    bad = {"security.nesting": "true", "security.privileged": "true", "raw.lxc": "a=b", "linux.kernel_modules": "x"}
    odd = {"odd.a": "1", "odd.b": "1", "limits.memory": "much"}
    kinds = [keys_named(server, it) for it in (
        ("POST", "/1.0/instances?project=three", instance("i", more), [*more]),
        ("POST", "/1.0/instances?project=four", instance("i", bad), [*bad]),
        ("POST", "/1.0/profiles?project=four", {"name": "p", "config": odd}, ["odd.a", "odd.b", "limits.memory", "much"]))]
    text = "; ".join(", ".join(f"{key} {count}" for key, count in found.most_common()) for found in kinds)
    return any(len(found) > 1 for found in kinds), text


HOLES = [
    creations_at_once, profile_beside_creations, shared_profile, restricted_late, restore_past_policy, forbidden_profile, volume_patch,
    sums_that_wrap, demanded_key, project_patch, notice_of_a_refusal, killed, profile_deleted, order_of_events, pool_limit, pool_limit_lowered,
    interception, volumes_at_once, patches_at_once, limit_lowered, same_etag, puts_of_a_profile, same_refusal]
