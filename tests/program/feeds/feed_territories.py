"""Territories of the trees: which the desk can hold, what they leave out, and the union of several."""

from tests.program.feeds.feed_terms import are_countries, is_country, matches
from tests.program.feeds.feed_trees import Territory

WORLD = "WORLD"

# All possible codes of countries, and a place without one, so that the world differs from any list of countries.
LETTERS = "ABCDEFGHIJKLMNOPQRSTUVWXYZ"
EVERY_COUNTRY = {first + second for first in LETTERS for second in LETTERS}
ELSEWHERE = "elsewhere"

# Countries that are read as others.
READ_AS = {"UK": "GB", "EL": "GR"}


def regions_of(text: str) -> list[str]:
    return text.split(" ") if text else []


def is_part_of_a_country(region: str) -> bool:
    country, hyphen, part = region.partition("-")
    return is_country(country) and hyphen == "-" and matches("[A-Z0-9]+", part)


def regions_alone(territory: Territory) -> list[str]:
    """Regions that are included without a country and without the world."""
    included = regions_of(territory.regions)
    return included if territory.included == "" and WORLD not in included else []


def regions_in_the_way(territory: Territory) -> list[str]:
    """Regions for which the desk cannot hold a territory."""
    alone = [region for region in regions_alone(territory) if not is_country(region)]
    excluded = [region for region in regions_of(territory.excluded_regions) if not is_country(region)]
    return alone + [region for region in excluded if not is_part_of_a_country(region)]


def countries_in_the_way(territory: Territory) -> list[str]:
    """Countries among the regions, with which the desk would not take a territory."""
    return [
        region for region in regions_alone(territory) + regions_of(territory.excluded_regions) if is_country(region)
    ]


def is_silent(territory: Territory) -> bool:
    return not (territory.included or territory.regions or territory.excluded or territory.excluded_regions)


def wrong_in(territory: Territory) -> list[str]:
    """What is wrong with a territory, except for its countries: a reason each."""
    silent = ["Territory"] if is_silent(territory) else []
    return silent + (["comes again"] if territory.again else []) + countries_in_the_way(territory)


def regions_left_out(territory: Territory) -> list[str]:
    """The regions of a territory that is written nevertheless, as often as they occur."""
    included = [region for region in regions_of(territory.regions) if region != WORLD]
    return included + regions_of(territory.excluded_regions)


def read_as_others(territory: Territory) -> list[str]:
    """The countries of a territory that are read as others, as often as they occur."""
    countries = f"{territory.included} {territory.excluded}".split(" ")
    return [country for country in countries if country in READ_AS]


def countries_of(text: str) -> str:
    return " ".join(READ_AS.get(country, country) for country in text.split(" "))


def territory_fields(territory: Territory | None) -> list[str]:
    """A territory as it is, except for countries that are read as others."""
    if territory is None:
        return ["", "", ""]
    world = WORLD if WORLD in regions_of(territory.regions) else ""
    return [countries_of(territory.included), world, countries_of(territory.excluded)]


def are_taken(fields: list[str]) -> bool:
    """Whether the desk takes these fields of a territory."""
    included, _world, excluded = fields
    return all(text == "" or are_countries(text) for text in (included, excluded))


def is_world(fields: list[str]) -> bool:
    """Whether it is the world, perhaps without some countries."""
    return fields[0] == "" or fields[1] == WORLD


def countries_in(fields: list[str]) -> list[str]:
    """The countries of a territory, in order."""
    return [country for country in fields[0].split() if country not in fields[2].split()]


def places_of(fields: list[str]) -> frozenset[str]:
    if is_world(fields):
        return frozenset(EVERY_COUNTRY - set(fields[2].split())) | {ELSEWHERE}
    return frozenset(countries_in(fields))


def union_fields(territories: list[list[str]]) -> list[str]:
    """The fields of the union of these territories."""
    if len(territories) == 1:
        return territories[0]
    places = frozenset[str]().union(*map(places_of, territories))
    if ELSEWHERE in places:
        return ["", WORLD, " ".join(sorted(EVERY_COUNTRY - places))]
    return [" ".join(sorted(places)), "", ""] if places else territories[0]
