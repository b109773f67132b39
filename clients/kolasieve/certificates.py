"""Who gets in over a network: certificates, both ways."""

import ssl

from kolasieve.messages import warn


class CertificateFault(Exception):
    """A file of certificates can't be used; the text says why."""


class Handshake(ssl.SSLObject):
    """A handshake that is logged where it is refused, and whose other end gets the alert that says why."""

    refused = False

    def do_handshake(self):
        try:
            super().do_handshake()
        except (ssl.SSLWantReadError, ssl.SSLWantWriteError):
            raise
        except ssl.SSLError as fault:
            if self.refused:
                raise
            self.refused = True
            warn(f"a connection is refused: {reason(fault)}")
            # asyncio sends what is there to be sent, the alert, only where a handshake waits for more. None comes.
            raise ssl.SSLWantReadError from None


def reason(fault):
    """Returns why a handshake was refused, as OpenSSL has it."""
    if fault.reason == "WRONG_VERSION_NUMBER":
        return "the port has no TLS"
    return getattr(fault, "verify_message", None) or (fault.reason or str(fault)).lower().replace("_", " ")


def of_server(certificate, key, clients):
    """Returns what a port is served with: only who has a certificate of this authority gets in."""
    context = ssl.SSLContext(ssl.PROTOCOL_TLS_SERVER)
    context.minimum_version = ssl.TLSVersion.TLSv1_2
    context.sslobject_class = Handshake
    context.verify_mode = ssl.CERT_REQUIRED
    return with_files(context, certificate, key, clients)


def of_client(certificate, key, servers):
    """Returns what a client connects with: the server must have a certificate of this authority, for its address."""
    return with_files(ssl.SSLContext(ssl.PROTOCOL_TLS_CLIENT), certificate, key, servers)


def with_files(context, certificate, key, authority):
    try:
        context.load_cert_chain(certificate, key)
        context.load_verify_locations(authority)
    except ssl.SSLError as fault:
        raise CertificateFault(f"{certificate}, {key}, {authority}: {fault.reason}") from None
    except OSError as fault:
        raise CertificateFault(f"{certificate}, {key}, {authority}: {fault.strerror}") from None
    return context


def owner_of(connection):
    """Returns the designer at the other end of a secured connection: the common name in the certificate."""
    for part in connection.get_extra_info("peercert")["subject"]:
        for field, name in part:
            if field == "commonName" and name.isprintable():
                return f"cert:{name}"
    raise CertificateFault("its certificate has no name")
