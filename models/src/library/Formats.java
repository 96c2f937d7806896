package library;

import java.math.BigDecimal;
import java.math.BigInteger;
import java.time.temporal.TemporalAccessor;
import java.util.Calendar;
import java.util.Date;
import java.util.Formattable;
import java.util.Formatter;

/** What a formatter does with its arguments: the calls that it makes on them. */
public final class Formats {
    private Formats() {
    }

    /** Takes the text of an argument, which a Formattable writes itself. */
    public static void take(Object each, Formatter to) {
        if (each instanceof Formattable) {
            Elements.hash(each);
            ((Formattable) each).formatTo(to, Library.number(), Library.number(), Library.number());
        } else {
            Elements.text(each);
        }
        if (each instanceof Number && Library.any()) {
            number(each);
        }
        if (each instanceof Date && Library.any()) {
            ((Date) each).getTime();
        }
        if (each instanceof Calendar && Library.any()) {
            calendar((Calendar) each);
        }
        if (each instanceof TemporalAccessor && Library.any()) {
            time((TemporalAccessor) each);
        }
    }

    /** Numbers of many digits, of classes that a program may extend. */
    private static void number(Object each) {
        if (each instanceof BigInteger) {
            BigInteger whole = (BigInteger) each;
            whole.signum();
            whole.negate().toString(Library.number());
            whole.toString(Library.number());
            whole.compareTo(whole);
        } else if (each instanceof BigDecimal) {
            BigDecimal one = (BigDecimal) each;
            one.compareTo(one);
            one.signum();
            one.scale();
            one.precision();
            one.unscaledValue();
            one.negate();
            one.abs();
        }
    }

    /** The library copies a calendar, and asks the copy, which may be the object itself. */
    private static void calendar(Calendar each) {
        Object copy = each.clone();
        Calendar asked = copy instanceof Calendar && Library.any() ? (Calendar) copy : each;
        asked.setLenient(true);
        asked.get(Library.number());
        asked.getTimeInMillis();
        asked.getTimeZone();
    }

    private static void time(TemporalAccessor each) {
        each.isSupported(null);
        each.get(null);
        each.getLong(null);
        each.query(null);
    }
}
