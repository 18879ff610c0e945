"""A shop's orders: the guard sees each before the shop does. The device is the `device.toml` beside this file."""
from amctl import Device, Intent
from amctl.asserts import not_reached, received
from amctl.results import OrderedDelivery

ORDER = Intent(action="org.example.ORDER")


def test_the_guard_gets_an_order(am_device: Device) -> None:
    received(am_device.app("com.shop"), ORDER, "com.guard/.Check")


def test_the_guard_comes_first(am_device: Device) -> None:
    shop, guard = am_device.app("com.shop"), am_device.app("com.guard")
    received(shop, ORDER, "com.shop/.Ledger", ordered=True)
    assert shop.inbox() == ()
    (order,) = guard.inbox()
    assert isinstance(order, OrderedDelivery)
    guard.finish(order.delivery, code=2)
    (order,) = shop.inbox()
    assert isinstance(order, OrderedDelivery) and order.code == 2


def test_a_guard_that_never_looks_is_passed_over(am_device: Device) -> None:
    shop, guard = am_device.app("com.shop"), am_device.app("com.guard")
    received(shop, ORDER, "com.guard/.Check", ordered=True)
    found = am_device.advance()
    assert found.due is not None
    # to the guard's deadline, at once
    am_device.advance(found.due - found.now)
    assert guard.inbox() == ()
    assert [it.delivery for it in shop.inbox()] == [2]


def test_nobody_else_writes_into_the_ledger(am_device: Device) -> None:
    not_reached(am_device.app("com.guard"), ORDER, "com.shop/.Ledger", by="not_exported")
