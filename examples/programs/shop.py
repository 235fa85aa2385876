"""Takes an order into a shop's database, and says what each customer has ordered."""
import datetime
import sys

from sqlalchemy import Column, Date, ForeignKey, Integer, String, create_engine, event, func, select
from sqlalchemy.exc import IntegrityError
from sqlalchemy.orm import Session, declarative_base, relationship

Base = declarative_base()


class Customer(Base):
    __tablename__ = "customers"
    id = Column(Integer, primary_key=True)
    name = Column(String(40), nullable=False)
    town = Column(String(40))
    orders = relationship("Order", order_by="Order.id", back_populates="who")


class Item(Base):
    __tablename__ = "items"
    sku = Column(String(8), primary_key=True)
    price = Column(Integer, nullable=False)
    stock = Column(Integer, nullable=False)


class Order(Base):
    __tablename__ = "orders"
    id = Column(Integer, primary_key=True)
    customer = Column(Integer, ForeignKey("customers.id"), nullable=False)
    item = Column(String(8), ForeignKey("items.sku"), nullable=False)
    pieces = Column(Integer, nullable=False)
    placed = Column(Date, nullable=False)
    who = relationship("Customer", back_populates="orders")
    what = relationship("Item")


engine = create_engine("sqlite:///shop.db", future=True)
event.listen(engine, "connect", lambda base, _: base.execute("PRAGMA foreign_keys = ON"))
name, sku, pieces = sys.argv[1], sys.argv[2], int(sys.argv[3])

with Session(engine, future=True) as session:
    customer = session.scalars(select(Customer).where(Customer.name == name)).one()
    item = session.get(Item, sku)
    if item is None or item.stock < pieces:
        sys.exit(f"there aren't {pieces} of {sku}")
    item.stock -= pieces
    session.add(Order(customer=customer.id, item=sku, pieces=pieces, placed=datetime.date(2024, 3, 12)))
    session.commit()
    try:
        session.delete(session.get(Item, "pen"))
        session.commit()
    except IntegrityError:
        session.rollback()
        print("pen is still sold: there are orders of it")
    totals = select(Customer.name, func.count(), func.sum(Order.pieces * Item.price)).join(
        Order, Order.customer == Customer.id).join(Item, Item.sku == Order.item).group_by(
        Customer.id).order_by(Customer.name)
    for who, count, cents in session.execute(totals):
        print(f"{who}: {count} orders, {cents / 100:.2f}")
    for order in customer.orders:
        print(f"{name} {order.placed} {order.pieces} {order.item}")
