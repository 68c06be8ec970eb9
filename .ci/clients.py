"""Clients of a server, and what they need: `clients.py NAME WORD..` calls the function NAME on the words.

Each client is a function of the address, and ends with an error where the server answers otherwise than it says."""
import socket, struct, sys, time

def connect(address, room=None):
    """A connection to the address, which may begin to listen a little later."""
    kind, place = address.split(':', 1)
    if kind == 'tcp':
        host, port = place.rsplit(':', 1)
        place = (host, int(port))
    for tries in range(200):
        link = socket.socket(socket.AF_UNIX if kind == 'unix' else socket.AF_INET)
        if room:
            link.setsockopt(socket.SOL_SOCKET, socket.SO_RCVBUF, room)
        link.settimeout(30)
        try:
            link.connect(place)
            return link
        except (FileNotFoundError, ConnectionRefusedError):
            link.close()
            time.sleep(0.1)
    sys.exit('nobody listens')

def ask(link, block, reply):
    """The block is answered so."""
    link.sendall(block)
    hear(link, reply)

def hear(link, reply):
    """The next octets are these."""
    got = b''
    while len(got) < len(reply):
        piece = link.recv(len(reply) - len(got))
        if not piece:
            sys.exit('the end came after %r' % got)
        got += piece
    if got != reply:
        sys.exit('%r came, and not %r' % (got, reply))

def end(link):
    """Nothing more comes once the client is done."""
    try:
        link.shutdown(socket.SHUT_WR)
    except OSError:
        pass
    if link.recv(1):
        sys.exit('more than the replies came')
    link.close()

def imports_first(address):
    """An importer waits until another compiler has reported its unit, and four more clients come and go."""
    importer = connect(address)
    ask(importer, b'HELLO 1 GCC main.cc\n', b'HELLO 1 modmap\n')
    importer.sendall(b'MODULE-IMPORT a\n')
    importer.settimeout(0.5)
    try:
        sys.exit('%r came before the unit' % importer.recv(1))
    except socket.timeout:
        importer.settimeout(30)
    exporter = connect(address)
    ask(exporter, b'HELLO 1 GCC a.cc ;\nMODULE-EXPORT a\n', b'HELLO 1 modmap ;\nPATHNAME a.gcm\n')
    ask(exporter, b'MODULE-COMPILED a\n', b'OK\n')
    hear(importer, b'PATHNAME a.gcm\n')
    end(exporter)
    end(importer)
    for others in range(4):
        end(connect(address))

def fills_up(address):
    """The second of two connections finds no room."""
    link = connect(address)
    ask(link, b'HELLO 1 GCC a.cc\n', b'HELLO 1 modmap\n')
    end(link)
    end(connect(address))

def resets(address):
    """A client sends until the server, whose replies it doesn't take, takes no more, and is gone with a reset. The next
    client is served."""
    link = connect(address, 4096)
    ask(link, b'HELLO 1 GCC b.cc\n', b'HELLO 1 modmap\n')
    link.settimeout(2)
    try:
        while True:
            link.sendall(b'MODULE-REPO ;\n' * 1023 + b'MODULE-REPO\n')
    except socket.timeout:
        pass
    link.setsockopt(socket.SOL_SOCKET, socket.SO_LINGER, struct.pack('ii', 1, 0))
    link.close()
    link = connect(address)
    ask(link, b'HELLO 1 GCC a.cc\n', b'HELLO 1 modmap\n')
    end(link)

def leave(path):
    """A socket stands there at which nobody listens."""
    with socket.socket(socket.AF_UNIX) as left:
        left.bind(path)

def wide():
    """The text of a project whose repository is answered with more than 1,024 octets."""
    print("modmap-project 1\nrepo '%s'\nmodule a a.cc\nmodule b b.cc\nend" % (r"\'" * 512))

def port():
    """A port of this machine at which nobody listens."""
    with socket.create_server(('127.0.0.1', 0)) as free:
        print(free.getsockname()[1])

if __name__ == '__main__':
    globals()[sys.argv[1]](*sys.argv[2:])
