"""Random streams of several clients: compares the program's replies with the model's."""

from checks import seeded
from checks.streams.compared import check_streams
from checks.streams.connected import check_connections
from checks.streams.planted import check_faults


def main():
    seeded.run("check_streams", "stream", check_streams, check_faults,
               "plant misreadings of the protocol in the model, and check that the streams "
               "find them", check_connections)
