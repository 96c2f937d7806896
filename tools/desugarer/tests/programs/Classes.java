// releases: 8 11 17 21
// refused before: Reflection

import java.io.IOException;

/** Methods of Class that tell something, and the standard input. */
public class Classes {
    interface Test { boolean of(Object each); }
    static class Inner { }
    static final class Done implements Runnable {
        public void run() { }
    }
    static final class Below extends Inner { }

    static void say(String text) { System.out.println(text); }

    public static void main(String[] words) throws IOException {
        Class<?> inner = Inner.class;
        say(inner.getSimpleName() + " " + inner.getName() + " " + inner.getCanonicalName() + " " + inner.getTypeName());
        say(inner.toString() + " " + inner.isInterface() + inner.isArray() + inner.isPrimitive() + inner.isEnum() + inner.isAnnotation());
        say("" + inner.isInstance(new Below()) + inner.isInstance("text") + inner.isAssignableFrom(Below.class) + inner.equals(Inner.class));
        say("" + inner.isMemberClass() + inner.isLocalClass() + inner.isAnonymousClass() + inner.isSynthetic() + inner.getModifiers());
        say("" + (inner.hashCode() == Inner.class.hashCode()) + (inner.getClassLoader() == Classes.class.getClassLoader()));
        say(Below.class.getSuperclass().getName() + " " + int[].class.getComponentType().getName() + " " + inner.getDeclaringClass().getName());
        say(Done.class.getInterfaces()[0].getName() + Done.class.getInterfaces().length);
        say("" + (inner.getResource("none") == null) + (inner.getResourceAsStream("none") == null) + (inner.getPackage() == null));
        Object below = new Below();
        say(inner.cast(below).getClass().getName());
        Test test = inner::isInstance;
        say("" + test.of(below) + test.of(1));
        say("" + Below.class.asSubclass(inner).getName());
        try {
            inner.cast("text");
        } catch (ClassCastException fault) {
            say("no");
        }
        say("" + String.CASE_INSENSITIVE_ORDER.compare("a", "A"));
        say("" + System.in.read());
    }
}
