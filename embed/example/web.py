"""Serves the folder that it is started in on 127.0.0.1; its argument is the port. As `python3 -m http.server`, but that asks
a name server for its own name before it serves, which can take long."""
import http.server
import socketserver
import sys

socketserver.ThreadingTCPServer.allow_reuse_address = True
socketserver.ThreadingTCPServer.daemon_threads = True
with socketserver.ThreadingTCPServer(("127.0.0.1", int(sys.argv[1])), http.server.SimpleHTTPRequestHandler) as server:
    print(f"serving on 127.0.0.1 port {sys.argv[1]}", flush=True)
    server.serve_forever()
