"""Programs with pandas and SQLAlchemy, captured and played back."""
from __future__ import annotations

import unittest
from typing import Optional

from .support import python_with
from .test_capture import SCALES, Programs

PANDAS, SQLALCHEMY = python_with("pandas"), python_with("sqlalchemy")
QUIET = "import sys, warnings\nwarnings.simplefilter('ignore')\n"
ORM = """
from sqlalchemy import (Column, Date, ForeignKey, Integer, Numeric, String, create_engine, func, insert,
                        select, text,
                        update)
from sqlalchemy.orm import Session, declarative_base, relationship
import datetime
Base = declarative_base()
class Person(Base):
    __tablename__ = "people"
    id = Column(Integer, primary_key=True)
    name = Column(String, nullable=False)
    born = Column(Integer)
    height = Column(Numeric(4, 2))
    site = Column(String)
    visits = relationship("Visit", back_populates="who", order_by="Visit.id")
class Visit(Base):
    __tablename__ = "visits"
    id = Column(Integer, primary_key=True)
    person = Column(Integer, ForeignKey("people.id"))
    day = Column(Date)
    dose = Column(Integer)
    who = relationship("Person", back_populates="visits")
engine = create_engine(sys.argv[1])
with Session(engine) as session:
    for person in session.scalars(select(Person).where(Person.born > 1980).order_by(Person.name)):
        print(person.name, person.height, [(visit.day, visit.dose) for visit in person.visits])
    print(session.execute(select(Person.site,
                                 func.count()).join(Visit).group_by(Person.site).order_by(Person.site)).all())
    session.add(Person(name="Di", born=2000))
    session.flush()
    person = session.scalars(select(Person).where(Person.name == "Di")).one()
    session.add_all([Visit(who=person, day=datetime.date(2020, 1, day), dose=day) for day in (1, 2, 3)])
    session.commit()
    print(person.id, session.scalar(select(func.sum(Visit.dose)).where(Visit.day >= datetime.date(2020, 1,
                                                                                                  1))))
    print(session.scalars(select(Visit.id).limit(2).offset(1).order_by(Visit.id)).all())
    print(session.scalars(select(Person.name).where(Person.id.in_([1, 3])).order_by(Person.id)).all())
    person.visits[0].dose = 99
    session.commit()
    session.delete(session.get(Visit, 1))
    session.commit()
    session.add(Person(id=1, name="dup"))
    try:
        session.commit()
    except Exception as fault:
        print(type(fault).__name__)
        session.rollback()
with engine.begin() as con:
    con.execute(insert(Visit.__table__), [{"person": 1, "day": datetime.date(2021, 1, day),
                                           "dose": day} for day in (1, 2)])
    older = update(Person.__table__).where(Person.site == "north").values(born=Person.born + 1)
    print(con.execute(older).rowcount)
    print([tuple(row) for row in con.execute(text("SELECT name, born FROM people WHERE born BETWEEN :a AND "
                                                  ":b ORDER BY id"),
                                             {"a": 1900, "b": 1999})])
    print(con.execute(select(func.count()).select_from(Visit.__table__)).scalar())
"""


@unittest.skipUnless(PANDAS, "python3-pandas isn't installed")
class Frames(Programs):
    def test_frames(self) -> None:
        """read_sql with parameters, dates, an index and chunks; to_sql into a table that is there."""
        _, said = self.whole("""
            import sqlite3
            import pandas
            con = sqlite3.connect("study.db")
            frame = pandas.read_sql("SELECT p.name, p.height, v.day, v.dose FROM people p JOIN visits v ON "
                                    "v.person = p.id "
                                    "WHERE v.dose IS NOT NULL", con, parse_dates=["day"])
            print(frame, frame.dtypes)
            print(pandas.read_sql_query("SELECT site, COUNT(*) AS n, AVG(born) AS mean FROM people GROUP BY "
                                        "site "
                                        "ORDER BY site", con, index_col="site"))
            print(pandas.read_sql("SELECT * FROM people WHERE born > :b", con, params={"b": 1986}))
            new = pandas.DataFrame({"person": [1, 2], "day": ["2022-01-01", "2022-01-02"], "dose": [7, 8]})
            print(new.to_sql("visits", con, if_exists="append", index=False))
            print(pandas.read_sql("SELECT * FROM visits", con))
            print([len(chunk) for chunk in pandas.read_sql("SELECT id FROM visits ORDER BY id", con,
                                                           chunksize=2)])
            """, *SCALES, begin=QUIET)
        self.assertIn("6 of 6 statements", said)

    def program(self, text: str, begin: Optional[str] = "") -> list[str]:
        return [PANDAS or "", *super().program(text, begin)[1:]]


@unittest.skipUnless(SQLALCHEMY, "python3-sqlalchemy isn't installed")
class Mapped(Programs):
    def test_orm(self) -> None:
        """SQLAlchemy's ORM and its Core."""
        out, said = self.whole(ORM, *SCALES, begin=QUIET)
        self.assertIn("IntegrityError", out)
        self.assertIn("statements have the answers that SQLite gave", said)

    def program(self, text: str, begin: Optional[str] = "") -> list[str]:
        return [SQLALCHEMY or "", *super().program(text, begin)[1:], "sqlite:///study.db"]
