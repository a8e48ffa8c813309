# Starts a program for each connection to a port of this machine, with the connection as its standard input and
# output and a fresh store: relay.py PROGRAM FOLDER. It prints the port, and serves until it is killed.
import os
import socket
import subprocess
import sys

program, folder = sys.argv[1:]
listener = socket.create_server(("127.0.0.1", 0))
print(listener.getsockname()[1], flush=True)
number = 0
while True:
    connection, _ = listener.accept()
    number += 1
    store = os.path.join(folder, f"store-{number}")
    with connection:
        subprocess.Popen([program, "pipe", "--store", store], stdin=connection, stdout=connection)
