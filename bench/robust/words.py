"""The words of the data that bench/robust/data.py makes: countries, genres, keywords, names."""

# Of each country its name, its language, and the genres that it is known for.
COUNTRIES = {
    "us": ("USA", "English", ("Drama", "Comedy", "Action")),
    "gb": ("UK", "English", ("Drama", "Crime", "Mystery")),
    "fr": ("France", "French", ("Drama", "Romance", "Crime")),
    "de": ("Germany", "German", ("Drama", "War", "Documentary")),
    "in": ("India", "Hindi", ("Musical", "Romance", "Family")),
    "jp": ("Japan", "Japanese", ("Animation", "Horror", "Drama")),
    "it": ("Italy", "Italian", ("Western", "Horror", "Comedy")),
    "ca": ("Canada", "English", ("Documentary", "Short", "Horror")),
    "es": ("Spain", "Spanish", ("Short", "Comedy", "Drama")),
    "hk": ("Hong Kong", "Cantonese", ("Action", "Crime", "Comedy")),
    "se": ("Sweden", "Swedish", ("Crime", "Drama", "Short")),
    "br": ("Brazil", "Portuguese", ("Romance", "Music", "Documentary")),
    "dk": ("Denmark", "Danish", ("Crime", "Comedy", "Family")),
    "mx": ("Mexico", "Spanish", ("Romance", "Western", "Horror")),
    "ru": ("Russia", "Russian", ("War", "Fantasy", "Drama")),
    "pl": ("Poland", "Polish", ("Short", "Animation", "War")),
    "kr": ("South Korea", "Korean", ("Thriller", "Romance", "Action")),
    "fi": ("Finland", "Finnish", ("Documentary", "Music", "Comedy")),
    "is": ("Iceland", "Icelandic", ("Mystery", "Documentary", "Drama")),
}
# Of each genre, the three most frequent keywords that go with it.
GENRES = {
    "Drama": ("family-secret", "death", "hospital"),
    "Comedy": ("friendship", "party", "sequel"),
    "Documentary": ("interview", "archive-footage", "nature"),
    "Short": ("one-day", "silence", "student"),
    "Romance": ("love", "wedding", "letter"),
    "Action": ("hero", "explosion", "car-chase"),
    "Thriller": ("murder", "revenge", "chase"),
    "Crime": ("police", "gangster", "robbery"),
    "Horror": ("blood", "vampire", "haunted-house"),
    "Adventure": ("island", "treasure", "jungle"),
    "Family": ("dog", "child", "school"),
    "Animation": ("talking-animal", "toy", "cartoon"),
    "Sci-Fi": ("robot", "space-travel", "alien"),
    "Fantasy": ("magic", "dragon", "sword"),
    "Mystery": ("detective", "secret", "disappearance"),
    "Music": ("concert", "band", "guitar"),
    "War": ("soldier", "battle", "prison-camp"),
    "Western": ("horse", "sheriff", "gunfight"),
    "Film-Noir": ("femme-fatale", "shadow", "blackmail"),
    "Musical": ("singer", "dance", "stage"),
}
KINDS = ("movie", "tv episode", "video", "tv movie", "tv series", "video game", "mini series")
ROLES = "actor actress producer writer cinematographer composer costumes director editor crew designer".split()
INFO_TYPES = ("genre", "country", "language", "certificate")
CERTIFICATES = {
    "Family": ("G", "G", "PG"),
    "Animation": ("G", "PG"),
    "Horror": ("R", "R", "PG-13"),
    "Crime": ("R", "PG-13"),
}
USUAL_CERTIFICATES = ("G", "PG", "PG-13", "R")
COMPANY_KINDS = ("Pictures", "Films", "Studios", "Entertainment", "Television")
FIRST = (
    "Anna Boris Clara David Elena Felix Greta Henry Irene Jonas Karin Louis Maria Nora Oscar Paula Quentin Rosa Simon Tessa "
    "Ulrich Vera Walter Xenia Yusuf Zoe Arjun Bianca Carlos Dalia Emil Fatima Gustav Hana Ivan Julia"
).split()
LAST = (
    "Abbott Becker Castro Dupont Eriksen Fischer Garcia Hansen Ito Jensen Kumar Larsen Moreau Novak Olsen Petrov Quinn Rossi "
    "Schmidt Tanaka Ueda Vogel Weber Xu Young Zimmer Almeida Bianchi Cohen Dahl Egede Ferrari Grant Holm Ivanov Jonsson"
).split()
THINGS = (
    "Night River Mountain Garden Winter Summer Letter Stranger House Train Island Shadow Mirror Ocean Desert Road Bridge "
    "Forest Harbor Storm Secret Dream Promise Journey Silence Fire Snow Star Window Door Clock Crown Rose Wolf Tiger Raven"
).split()
NATIONS = (
    "ALGERIA ARGENTINA BRAZIL CANADA EGYPT ETHIOPIA FRANCE GERMANY INDIA INDONESIA IRAN IRAQ JAPAN JORDAN KENYA MOROCCO "
    "MOZAMBIQUE PERU CHINA ROMANIA SAUDI_ARABIA VIETNAM RUSSIA ENGLAND AMERICA"
).split()
REGIONS = ("AFRICA", "AMERICA", "ASIA", "EUROPE", "MIDDLE_EAST")
REGION_OF = (0, 1, 1, 1, 4, 0, 3, 3, 2, 2, 4, 4, 2, 4, 0, 0, 0, 1, 2, 3, 4, 2, 3, 3, 1)
SEGMENTS = ("AUTOMOBILE", "BUILDING", "FURNITURE", "HOUSEHOLD", "MACHINERY")
