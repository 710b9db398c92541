"""The door: a port at which students on other machines connect by TLS, without root, to the networks of one class."""
