"""Generated ontologies of the shape of well-known ones: pizzas, kinship, anatomy, and devices with data.

Each is made from a seed, has some dozens of classes, and says part of what it says by constructs outside of SHQ.
"""
import random

from tests.owl_grammar import document


def declared(axioms, classes, roles=(), properties=()):
    """A document with the axioms, behind declarations of all names that are no individuals."""
    names = [("Class", it) for it in classes] + [("ObjectProperty", it) for it in roles]
    names += [("DataProperty", it) for it in properties]
    return document([*(f"Declaration({kind}({name}))" for kind, name in names), *axioms])


def some(role, of):
    return f"ObjectSomeValuesFrom({role} {of})"


def all_of(role, of):
    return f"ObjectAllValuesFrom({role} {of})"


def both(*classes):
    return f"ObjectIntersectionOf({' '.join(classes)})"


def below(one, other):
    return f"SubClassOf({one} {other})"


def equal(one, other):
    return f"EquivalentClasses({one} {other})"


def pizzas(chooser, size=40):
    """Pizzas with some toppings, mostly with these alone, of a country; what is vegetarian, spicy or European."""
    toppings = [f":Topping{it}" for it in range(size // 2)]
    named = [f":Pizza{it}" for it in range(size)]
    countries = [":italy", ":france", ":peru"]
    axioms = [
        "DisjointClasses(:Meat :Vegetable)",
        "DifferentIndividuals(:italy :france :peru)",
        "InverseObjectProperties(:hasTopping :isToppingOf)",
        "FunctionalObjectProperty(:isToppingOf)",
        "FunctionalObjectProperty(:comesFrom)",
        "ObjectPropertyDomain(:isToppingOf :Food)",
        equal(":Vegetarian", both(":Pizza", f"ObjectComplementOf({some(':hasTopping', ':Meat')})")),
        equal(":Spicy", both(":Pizza", some(":hasTopping", some(":hasSpice", "ObjectOneOf(:hot)")))),
        equal(":European", both(":Pizza", some(":comesFrom", "ObjectOneOf(:italy :france)"))),
        equal(":Italian", both(":Pizza", "ObjectHasValue(:comesFrom :italy)")),
        equal(":Plain", both(":Pizza", all_of(":hasTopping", ":Vegetable"))),
        equal(":Rich", both(":Pizza", "ObjectMinCardinality(3 :hasTopping)")),
    ]
    for topping in toppings:
        axioms.append(below(topping, chooser.choice([":Meat", ":Vegetable"])))
        if chooser.random() < 0.4:
            axioms.append(below(topping, f"ObjectHasValue(:hasSpice {chooser.choice([':hot', ':mild'])})"))
    axioms.append(f"DisjointClasses({' '.join(toppings)})")
    for pizza in named:
        own = chooser.sample(toppings, chooser.randint(1, 4))
        axioms += [below(pizza, ":Pizza"), *(below(pizza, some(":hasTopping", it)) for it in own)]
        if len(own) > 1 and chooser.random() < 0.7:
            axioms.append(below(pizza, all_of(":hasTopping", f"ObjectUnionOf({' '.join(own)})")))
        if chooser.random() < 0.6:
            axioms.append(below(pizza, f"ObjectHasValue(:comesFrom {chooser.choice(countries)})"))
    others = ["Vegetarian", "Spicy", "European", "Italian", "Plain", "Rich", "Meat", "Vegetable", "Pizza", "Food"]
    roles = [":hasTopping", ":isToppingOf", ":comesFrom", ":hasSpice"]
    return declared(axioms, [*toppings, *named, *(f":{it}" for it in others)], roles)


def kinship(chooser, size=30):
    """Relatives by inverse and symmetric roles and by chains, and classes of people who have some."""
    roles = [":hasParent", ":hasChild", ":hasSibling", ":hasGrandparent", ":hasUncle", ":hasAncestor"]
    jobs = [f":Job{it}" for it in range(size // 3)]
    axioms = [
        "InverseObjectProperties(:hasParent :hasChild)",
        "SymmetricObjectProperty(:hasSibling)",
        "SubObjectPropertyOf(ObjectPropertyChain(:hasParent :hasParent) :hasGrandparent)",
        "SubObjectPropertyOf(ObjectPropertyChain(:hasParent :hasSibling) :hasUncle)",
        "SubObjectPropertyOf(:hasParent :hasAncestor)",
        "TransitiveObjectProperty(:hasAncestor)",
        "IrreflexiveObjectProperty(:hasParent)",
        "ObjectPropertyDomain(:hasParent :Person)",
        "ObjectPropertyRange(:hasParent :Person)",
        *(below(it, ":Person") for it in jobs),
    ]
    classes = []
    for number in range(size):
        name, known = f":Kin{number}", [*jobs, *classes[-12:]]
        one, other = chooser.choice(known), chooser.choice(known)
        role = chooser.choice(roles)
        axioms.append(chooser.choice([
            lambda: equal(name, both(":Person", some(role, one))),
            lambda: below(name, some(":hasParent", some(chooser.choice([":hasParent", ":hasSibling"]), one))),
            lambda: below(name, both(one, some(":hasChild", all_of(":hasParent", other)))),
            lambda: equal(name, both(one, all_of(role, other))),
            lambda: below(name, some(":hasSibling", all_of(":hasSibling", one))),
        ])())
        classes.append(name)
    return declared(axioms, [*jobs, *classes, ":Person"], roles)


def anatomy(chooser, size=20):
    """Parts and places by inverse transitive roles and a chain, and what is defined by where it is."""
    organs = [f":Organ{it}" for it in range(size)]
    axioms = [
        "InverseObjectProperties(:partOf :hasPart)",
        "TransitiveObjectProperty(:partOf)",
        "SubObjectPropertyOf(ObjectPropertyChain(:locatedIn :partOf) :locatedIn)",
        "ObjectPropertyDomain(:locatedIn :Disease)",
        "SubObjectPropertyOf(:partOf :overlaps)",
    ]
    diseases, defined = [], []
    for number, organ in enumerate(organs[1:], 1):
        whole = organs[chooser.randrange(number)]
        axioms.append(chooser.choice([
            below(organ, some(":partOf", whole)),
            below(organ, whole),
            below(organ, both(whole, some(":hasPart", organs[chooser.randrange(number)]))),
        ]))
        if number % 4 == 0:
            diseases.append(f":Disease{number}")
            axioms.append(below(diseases[-1], some(":locatedIn", organ)))
        if number % 5 == 0:
            defined += [f":DiseaseOf{number}", f":PartOf{number}", f":With{number}"]
            axioms.append(equal(defined[-3], both(":Disease", some(":locatedIn", whole))))
            axioms.append(equal(defined[-2], some(":partOf", whole)))
            axioms.append(equal(defined[-1], some(":overlaps", organ)))
    roles = [":partOf", ":hasPart", ":locatedIn", ":overlaps"]
    return declared(axioms, [*organs, *diseases, *defined, ":Disease"], roles)


def devices(chooser, size=20):
    """Devices with numbers and codes, classes by ranges of these, and individuals with data."""
    def number(value):
        return f'"{value}"^^xsd:integer'

    def limit(facet, value):
        return f"DataSomeValuesFrom(:weight DatatypeRestriction(xsd:integer xsd:{facet} {number(value)}))"

    limits = [15, 30, 45]
    axioms = [
        "FunctionalDataProperty(:weight)",
        "DataPropertyDomain(:weight :Device)",
        "DataPropertyRange(:code xsd:string)",
        "SubDataPropertyOf(:code :label)",
        *(equal(f":Light{it}", both(":Device", limit("maxInclusive", it))) for it in limits),
        *(equal(f":Heavy{it}", both(":Device", limit("minExclusive", it))) for it in limits),
        equal(":Coded", 'DataSomeValuesFrom(:code DataOneOf("a" "b"))'),
        equal(":Labelled", "DataSomeValuesFrom(:label xsd:string)"),
        equal(":Twice", "DataMinCardinality(2 :label)"),
    ]
    models = [f":Model{it}" for it in range(size)]
    for model in models:
        axioms.append(chooser.choice([
            below(model, f"DataHasValue(:weight {number(chooser.randint(1, 60))})"),
            below(model, both(":Device", limit("minInclusive", chooser.choice(limits)))),
            below(model, both(f":Light{chooser.choice(limits)}", f":Heavy{chooser.choice(limits)}")),
            below(model, f'DataHasValue(:code "{chooser.choice("abc")}")'),
            below(model, both(chooser.choice(models[:5]), "DataMinCardinality(2 :code)")),
        ]))
    for at in range(size // 2):
        axioms.append(f"DataPropertyAssertion(:weight :device{at} {number(chooser.randint(1, 60))})")
        if at % 3 == 0:
            axioms.append(f"ClassAssertion({chooser.choice(models)} :part{at})")
    classes = [*models, *(f":{word}{it}" for word in ("Light", "Heavy") for it in limits)]
    return declared(axioms, [*classes, ":Coded", ":Labelled", ":Twice", ":Device"], (), [":weight", ":code", ":label"])


DOMAINS = {"pizzas": pizzas, "kinship": kinship, "anatomy": anatomy, "devices with data": devices}


def ontology(domain, seed):
    """An ontology of a domain."""
    return DOMAINS[domain](random.Random(f"{domain} {seed}"))
