"""A PostgreSQL server of the tests' own, with PostGIS, in a temporary folder. It listens at a Unix socket alone."""
import glob
import os
import pwd
import shutil
import subprocess

WORDS = {"PGUSER": "postgres", "PGDATABASE": "postgres"}


def programs():
    """The folder of PostgreSQL's programs, or nothing where they or PostGIS aren't here."""
    found = [os.path.dirname(path) for path in glob.glob("/usr/lib/postgresql/*/bin/initdb")]
    found += [os.path.dirname(os.path.realpath(path)) for path in [shutil.which("initdb")] if path]
    for place in sorted(set(found)):
        config = os.path.join(place, "pg_config")
        shared = [place.replace("/usr/lib/", "/usr/share/").removesuffix("/bin")]
        if os.path.exists(config):
            shared.append(subprocess.run([config, "--sharedir"], capture_output=True, text=True).stdout.strip())
        if any(os.path.exists(os.path.join(folder, "extension", "postgis.control")) for folder in shared):
            return place
    return None


class Database:
    """A server that runs until `stop`. It runs as the user postgres where this runs as root."""

    def __init__(self, place, folder):
        self.place, self.data, self.socket = place, os.path.join(folder, "data"), os.path.join(folder, "socket")
        self.user = {}
        if os.geteuid() == 0:
            owner = pwd.getpwnam("postgres")
            self.user = {"user": owner.pw_uid, "group": owner.pw_gid, "extra_groups": []}
        for one in (self.data, self.socket):
            os.mkdir(one, 0o700)
            if self.user:
                os.chown(one, owner.pw_uid, owner.pw_gid)
        os.chmod(self.socket, 0o755)
        self.words = WORDS | {"PGHOST": self.socket}
        self.call("initdb", "-D", self.data, "-U", "postgres", "--auth=trust", "--no-sync", "-E", "UTF8", "--locale=C")
        options = f"-c listen_addresses='' -c unix_socket_directories='{self.socket}' -c fsync=off"
        self.call("pg_ctl", "-D", self.data, "-w", "-o", options, "-l", os.path.join(self.socket, "log"), "start")

    def call(self, name, *words):
        subprocess.run([os.path.join(self.place, name), *words], check=True, stdout=subprocess.DEVNULL, cwd="/", **self.user)

    def stop(self):
        self.call("pg_ctl", "-D", self.data, "-m", "fast", "-w", "stop")

    def asked(self, script):
        words = ["psql", "-X", "-q", "-At", "-v", "ON_ERROR_STOP=1"]
        return subprocess.run(words, input=script, capture_output=True, text=True, check=True, env=os.environ | self.words).stdout
