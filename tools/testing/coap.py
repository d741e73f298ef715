"""Messages of CoAP, read and written without the proxy's code."""

from reading.messages import *
from reading.written import *
