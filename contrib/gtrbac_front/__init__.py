"""The front of gtrbacd: callers that are known, each of whom speaks as one user.

    base       names, faults, and what is said on the standard error
    peers      whose process listens at a place, and who calls over a Unix socket or TLS
    shares     how much of a server one user and one caller may have
    house      kept connections to a server, each of which is one user's at a time
    record     the decision log: a line of JSON for each answer, before it leaves
    web        requests and answers of HTTP/1.1
    face       a place where callers come: how they are let in and counted
    lines      the face that speaks the server's lines
    questions  what a request of AuthZEN asks
    sessions   the sessions that are kept for its subjects
    authzen    the face that speaks AuthZEN
    health     the face for whoever watches the front
    papers     how long certificates and lists of revoked ones last
    tables     the file of tables: its keys, and what is wrong with it
    front      the whole: start, reload, end
"""
