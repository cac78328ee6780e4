"""What each page of the project has: a policy that names the hashes of its own script and style, and nothing from elsewhere."""
import base64
import hashlib
import re

wrong = []


def check(holds, *words):
    if not holds:
        wrong.append(": ".join(map(str, words)))
    return holds


def digest(text):
    return base64.b64encode(hashlib.sha256(text.encode()).digest()).decode()


def part(pattern, page):
    found = re.search(pattern, page, re.S)
    return found[1] if found else ""


def compare_frame(name, page):
    """Looks at what stands around the data of a page. Answers the page without its style and script."""
    style, script = part(r"<style>(.*?)</style>", page), part(r"<script>(.*?)</script>", page)
    policy = "default-src 'none'; script-src 'sha256-{}'; style-src 'sha256-{}'; base-uri 'none'; form-action 'none'"
    policy = policy.format(digest(script), digest(style))
    check(f'<meta http-equiv="Content-Security-Policy" content="{policy}">' in page, name, "the policy isn't that of its script and style")
    check(page.isascii(), name, "it has bytes that aren't ASCII")
    outside = page.replace(style, "").replace(script, "")
    check(page.count("<style>") == 1 and page.count("<script>") == 1, name, "it has another script or style")
    links = outside.replace('xmlns="http://www.w3.org/2000/svg"', "")
    check(not re.search(r"<[^>]*\b(?:src|href|on\w+|style)=|https?:", links), name, "it names something outside of it")
    return outside
