"""The common parts of the door and the broker: sockets, admission of connections, messages and
state, signals and service managers."""
