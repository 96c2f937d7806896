"""The families of classes that `compare` looks at: of which classes scenarios make objects, the texts that they pass, the classes below which
there is a recording one, the data of the recording streams, and the methods that no scenario calls."""

import re
from dataclasses import dataclass, field


@dataclass
class Family:
    """A family; `skip` is an expression that finds the methods to be left out in the class, a full stop and the name. Each scenario has a JVM
    alone where the library keeps what the one before did."""
    name: str
    classes: list[str]
    texts: list[str]
    below: list[str] = field(default_factory=list)
    data: list[str] = field(default_factory=lambda: ["text"])
    skip: str = "$."
    alone: bool = False

    def skipped(self, name: str, key: tuple[str, str]) -> bool:
        """Whether no scenario calls the method."""
        return bool(re.search(self.skip, f"{name}.{key[0]}"))


FAMILIES = [
    Family("Texts",
           ["java/util/Scanner", "java/util/regex/Pattern", "java/util/regex/Matcher", "java/util/Formatter", "java/util/StringJoiner", "java/util/Optional",
            "java/util/Objects"],
           ['"a"', '"%s %h %5s%n"', '"[0-9]+"', '"(x)(x)?"', '"UTF-8"', '"x"', '"%s"', '"%d"'],
           skip=r"Pattern\.(asPredicate|splitAsStream)"),
    Family("Events",
           ["java/beans/PropertyChangeSupport", "java/beans/VetoableChangeSupport", "java/beans/PropertyChangeListenerProxy",
            "java/beans/VetoableChangeListenerProxy", "java/beans/PropertyChangeEvent", "java/beans/IndexedPropertyChangeEvent", "java/util/EventObject",
            "java/util/EventListenerProxy", "java/util/Observable"],
           ['"a"', '"b"', "null"],
           below=["java/beans/PropertyChangeSupport", "java/beans/VetoableChangeSupport", "java/beans/PropertyChangeEvent", "java/util/EventObject",
                  "java/util/Observable"]),
    Family("Logs",
           ["java/util/logging/Logger", "java/util/logging/StreamHandler", "java/util/logging/MemoryHandler", "java/util/logging/ConsoleHandler",
            "java/util/logging/FileHandler", "java/util/logging/SimpleFormatter", "java/util/logging/XMLFormatter", "java/util/logging/ErrorManager",
            "java/util/logging/LogRecord", "java/util/logging/LogManager", "java/util/logging/Handler", "java/util/logging/Formatter"],
           ['"a"', '"a.b"', '"{0} {1}"', '"UTF-8"', '"%u.log"', '"no-such"'],
           below=["java/util/logging/" + each for each in ("Logger", "StreamHandler", "MemoryHandler", "XMLFormatter", "Formatter", "ErrorManager",
                                                          "Handler", "LogManager")],
           skip=r"getLoggingMXBean", alone=True),
    Family("Archives",
           ["java/util/zip/ZipInputStream", "java/util/zip/ZipOutputStream", "java/util/zip/ZipFile", "java/util/jar/JarFile", "java/util/zip/ZipEntry",
            "java/util/jar/JarInputStream", "java/util/jar/JarOutputStream", "java/util/jar/Manifest", "java/util/jar/JarEntry",
            "java/util/zip/GZIPInputStream", "java/util/zip/GZIPOutputStream", "java/util/zip/CheckedInputStream", "java/util/zip/InflaterInputStream"],
           ['"a"', '"b"', '"a.zip"', '"a.jar"', '"no-such"', '"META-INF/MANIFEST.MF"'],
           below=["java/util/zip/ZipInputStream", "java/util/zip/ZipOutputStream", "java/util/jar/JarInputStream", "java/util/jar/JarOutputStream",
                  "java/util/zip/ZipFile", "java/util/jar/JarFile"],
           data=["zip", "jar", "gzip"], skip=r"\.(setMethod|parallel|unordered|sorted)$"),
    Family("Parsers",
           ["org/xml/sax/XMLReader", "org/xml/sax/helpers/XMLFilterImpl", "javax/xml/parsers/SAXParser", "javax/xml/parsers/SAXParserFactory",
            "javax/xml/parsers/DocumentBuilder", "javax/xml/parsers/DocumentBuilderFactory", "org/xml/sax/InputSource",
            "org/xml/sax/helpers/DefaultHandler", "org/xml/sax/HandlerBase", "org/xml/sax/ext/DefaultHandler2", "org/xml/sax/Parser",
            "org/xml/sax/helpers/XMLReaderFactory"],
           ['"a.doc"', '"no-such.doc"', '"http://xml.org/sax/properties/lexical-handler"', '"http://xml.org/sax/properties/declaration-handler"',
            '"http://xml.org/sax/features/namespaces"', '"UTF-8"'],
           below=["org/xml/sax/helpers/XMLFilterImpl", "org/xml/sax/helpers/DefaultHandler", "org/xml/sax/HandlerBase", "org/xml/sax/ext/DefaultHandler2",
                  "org/xml/sax/InputSource"],
           data=["doc", "bad", "doc"], skip=r"newInstance|createXMLReader|Schema$"),
    Family("Machines",
           ["java/lang/ThreadLocal", "java/util/ResourceBundle", "java/util/ListResourceBundle", "java/util/PropertyResourceBundle",
            "java/util/ResourceBundle$Control", "java/text/MessageFormat", "java/util/StringTokenizer",
            "java/io/File"],
           ['"k"', '"a"', '"{0} and {1}"', '"no-such"', '"java.properties"'],
           below=["java/lang/ThreadLocal", "java/util/ResourceBundle", "java/util/ListResourceBundle", "java/util/PropertyResourceBundle",
                  "java/util/ResourceBundle$Control"],
           skip=r"File\.(delete|createNewFile|mkdir|rename|set|createTempFile|list)|formatToCharacterIterator", alone=True),
    Family("Connections",
           ["java/net/URL", "java/net/URLConnection", "java/net/HttpURLConnection", "java/net/Socket", "java/net/ServerSocket", "java/lang/ProcessBuilder",
            "java/lang/Process", "java/lang/Runtime"],
           ['"rec"', '"localhost"', '"/bin/true"', '"http://localhost:1/"', '"x"'],
           below=["java/net/URLConnection", "java/net/HttpURLConnection", "java/net/URLStreamHandler"],
           skip=r"accept|ServerSocket\.set|addShutdownHook|exit|halt|load|traceM|runFinal|gc$|inheritIO|redirect|waitFor\(J|setSocket|getLocalizedInputStream|"
                r"getLocalizedOutputStream|getChannel", alone=True),
]
