"""A second reading of AWS Signature Version 4, over hashlib and hmac alone, for tests: of what AWS's page "Create a signed
AWS API request" says, and shares nothing with the library.

The heads that it reads are plain: an URL with an authority, a path and a query that are percent-encoded once.
"""

import hashlib
import hmac
from urllib.parse import quote, unquote_to_bytes


def encoded(text, safe=""):
    return quote(unquote_to_bytes(text), safe="-._~" + safe)


def parts(url):
    scheme, rest = url.split("://", 1)
    cut = min((rest.find(mark) for mark in "/?" if mark in rest), default=len(rest))
    path, _, query = rest[cut:].partition("?")
    return scheme, rest[:cut], path or "/", query


def canonical_query(query):
    pairs = [piece.partition("=") for piece in query.split("&") if piece]
    return "&".join(f"{key}={value}" for key, value in sorted((encoded(pair[0]), encoded(pair[2])) for pair in pairs))


def canonical(method, path, query, headers, payload):
    """The canonical request, and the names that it signs."""
    values = {}
    for name, value in headers:
        values.setdefault(name.lower(), []).append(" ".join(part for part in value.split(" ") if part))
    names = ";".join(sorted(values))
    lines = "".join(f"{name}:{','.join(values[name])}\n" for name in sorted(values))
    return "\n".join([method, encoded(path, "/"), canonical_query(query), lines, names, payload]), names


def mac(key, text):
    return hmac.new(key, text.encode(), hashlib.sha256).digest()


def signature(secret, date, region, service, request):
    scope = f"{date[:8]}/{region}/{service}/aws4_request"
    text = f"AWS4-HMAC-SHA256\n{date}\n{scope}\n{hashlib.sha256(request.encode()).hexdigest()}"
    key = ("AWS4" + secret).encode()
    for part in date[:8], region, service, "aws4_request":
        key = mac(key, part)
    return scope, mac(key, text).hex()


def added_headers(method, url, headers, access, secret, region, service, payload, date):
    """The headers that sign a request, in order. `date` is as 20130524T000000Z."""
    _, authority, path, query = parts(url)
    kept = [pair for pair in headers if pair[0].lower() not in ("authorization", "x-amz-date")]
    added = [] if any(name.lower() == "host" for name, _ in kept) else [("host", authority)]
    added.append(("x-amz-date", date))
    request, names = canonical(method, path, query, [*kept, *added], payload)
    scope, found = signature(secret, date, region, service, request)
    value = f"AWS4-HMAC-SHA256 Credential={access}/{scope}, SignedHeaders={names}, Signature={found}"
    return [*added, ("authorization", value)]


def link(method, url, access, secret, region, service, expires, date):
    """The link of a request."""
    scheme, authority, path, query = parts(url)
    scope = f"{date[:8]}/{region}/{service}/aws4_request"
    pairs = [
        ("X-Amz-Algorithm", "AWS4-HMAC-SHA256"), ("X-Amz-Credential", f"{access}/{scope}"), ("X-Amz-Date", date),
        ("X-Amz-Expires", str(expires)), ("X-Amz-SignedHeaders", "host"),
    ]
    signed = "&".join([*([query] if query else []), *(f"{key}={quote(value, safe='-._~')}" for key, value in pairs)])
    request, _ = canonical(method, path, signed, [("host", authority)], "UNSIGNED-PAYLOAD")
    found = signature(secret, date, region, service, request)[1]
    return f"{scheme}://{authority}{path}?{signed}&X-Amz-Signature={found}"
