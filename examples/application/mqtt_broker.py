"""A connection to a broker of MQTT 5, for mqtt_bridge.py and mqtt_centre.py. It takes python3-paho-mqtt.

It comes back by itself, and the broker keeps its session for ten minutes. What it says arrives in order and at least once (QoS 1), and what is said to it is
heard once: behind each text stands ` #SENDER.COUNT`, COUNT rising, and a text whose count came before on its topic is dropped. A text without one is heard each
time.

Nothing here encrypts and no name or password is given: a broker in service wants paho's `tls_set` and `username_pw_set`.
"""
import collections
import secrets
import select
import sys
import time

import paho.mqtt.client as mqtt
from paho.mqtt.packettypes import PacketTypes
from paho.mqtt.properties import Properties

MOST_ON_THEIR_WAY, MOST_TOPICS = 20, 65_536
PAUSE, KEEP_ALIVE, SESSION = 0.2, 15, 600


class Broker:
    """One connection, of which the broker knows the name: what was said to this name while nobody of it was there is heard first."""

    def __init__(self, name, address, topics=(), heard=None):
        self.topics, self.heard, self.listens, self.newest, self.due = topics, heard, True, {}, 0
        self.waiting, self.on_their_way, self.sender, self.count = collections.deque(), 0, secrets.token_hex(4), 0
        # paho 2 wants to know which form its callbacks have.
        form = [mqtt.CallbackAPIVersion.VERSION1] if hasattr(mqtt, "CallbackAPIVersion") else []
        self.client = mqtt.Client(*form, name, protocol=mqtt.MQTTv5)
        self.client.on_connect, self.client.on_publish, self.client.on_message = self.connected, self.arrived, self.came
        lasting = Properties(PacketTypes.CONNECT)
        lasting.SessionExpiryInterval = SESSION
        host, _, port = address.rpartition(":")
        self.client.connect_async(host, int(port), KEEP_ALIVE, clean_start=False, properties=lasting)
        self.client.max_inflight_messages_set(MOST_ON_THEIR_WAY)

    def leave(self, topic, text, seconds=0, retain=False):
        """What the broker is to say where this is gone for so long."""
        late = Properties(PacketTypes.WILLMESSAGE)
        late.WillDelayInterval = seconds
        self.client.will_set(topic, text, 1, retain, late)

    def say(self, topic, text, retain=False):
        self.count += 1
        self.waiting.append((topic, f"{text} #{self.sender}.{self.count}", 1, retain))

    def connected(self, client, data, flags, reason, properties):
        print("broker:", reason, file=sys.stderr, flush=True)
        for topic in self.topics:
            client.subscribe(topic, 1)

    def arrived(self, *_):
        self.on_their_way -= 1

    def came(self, client, data, message):
        try:
            text, _, number = message.payload.decode().partition(" #")
            if not number or self.is_new(message.topic, *number.split(".")):
                self.heard(message.topic.split("/"), text)
        except (ValueError, TypeError, LookupError):
            print("not understood:", message.topic, message.payload, file=sys.stderr, flush=True)

    def is_new(self, topic, sender, count):
        number, newest = (sender, int(count)), self.newest.pop(topic, ("", 0))
        new = sender != newest[0] or number > newest
        self.newest[topic] = number if new else newest
        if len(self.newest) > MOST_TOPICS:
            del self.newest[next(iter(self.newest))]
        return new

    def is_there(self):
        return self.client.socket() is not None and self.client.is_connected()

    def move(self, readable, writable):
        line = self.client.socket()
        if line is None and time.monotonic() >= self.due:
            self.due = time.monotonic() + PAUSE
            try:
                self.client.reconnect()
            except OSError:
                return
        if line in readable:
            self.client.loop_read()
        if line in writable:
            self.client.loop_write()
        self.client.loop_misc()
        # Never more than paho sends at once: once it is back it says again, in order, what was on its way, and what waits comes behind.
        while self.waiting and self.on_their_way < MOST_ON_THEIR_WAY and self.is_there():
            self.on_their_way += 1
            self.client.publish(*self.waiting.popleft())


def wait(brokers, reading, writing):
    """Waits a moment for something to read or to write, moves the brokers on, and tells what can be read and written."""
    for broker in brokers:
        if line := broker.client.socket():
            reading += [line] if broker.listens else []
            writing += [line] if broker.client.want_write() else []
    readable, writable, _ = select.select(reading, writing, [], PAUSE)
    for broker in brokers:
        broker.move(readable, writable)
    return readable, writable
