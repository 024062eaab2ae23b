"""Whether a layout and its links allow a target (in-toto 1.0, section 5.2)."""
import artifact_rules
from denials import Denied, deny_unless
from document_parts import top_key
from documents import is_live, meets, verifies


def signer(link, step):
    """The public key of the step whose holder signed the link, or None."""
    keyid, signature = link.signatures[0]
    public = step.rule.public_keys().get(keyid)
    if link.name == step.name and public is not None and verifies(public, link.signed_bytes, signature):
        return public
    return None


def good_links(step, links):
    """The links that count for the step, each with the key that signed it."""
    signers = [(signer(link, step), link) for link in links]
    return [(public, link) for public, link in signers if public is not None]


def judge_rules(rules, side, link, links):
    fault = artifact_rules.fault(rules, side, link, links)
    deny_unless(fault is None or fault[0] != "disallowed", "Disallowed")
    deny_unless(fault is None or fault[0] != "required", "Required")


def judge(layout, owners, links, step, product, digest, now):
    """Raises the first check that fails. `owners` is a rule, `digest` that of the target."""
    deny_unless(meets(owners, layout), "LayoutThreshold")
    deny_unless(is_live(layout, now), "LayoutExpired")
    good = {each.name: good_links(each, links) for each in layout.steps}
    for each in layout.steps:
        deny_unless(len({top_key(public) for public, _ in good[each.name]}) >= each.rule.threshold, "StepThreshold")
    for each in layout.steps:
        said = [(link.materials, link.products) for _, link in good[each.name]]
        deny_unless(all(one == said[0] for one in said), "LinksDisagree")
    link_of = {name: found[0][1] for name, found in good.items()}
    for each in layout.steps:
        judge_rules(each.materials, "materials", link_of[each.name], link_of)
        judge_rules(each.products, "products", link_of[each.name], link_of)
    deny_unless(step in link_of and link_of[step].products.get(product) == digest, "ProductMismatch")


def verdict(*case):
    """The name of the denial, or None where the target is allowed."""
    try:
        judge(*case)
    except Denied as denied:
        return denied.name
    return None
