// releases: 8 11 17 21
// refused before: on a JVM alone

import java.io.ByteArrayInputStream;
import java.io.ByteArrayOutputStream;
import java.io.ObjectInputStream;
import java.io.ObjectOutputStream;
import java.io.Serializable;

/** Lambdas that are written to a stream and read again. */
public class Kept {
    interface Make extends Serializable { String get(); }

    static Make copied(Make made) throws Exception {
        ByteArrayOutputStream bytes = new ByteArrayOutputStream();
        try (ObjectOutputStream out = new ObjectOutputStream(bytes)) {
            out.writeObject(made);
        }
        try (ObjectInputStream in = new ObjectInputStream(new ByteArrayInputStream(bytes.toByteArray()))) {
            return (Make) in.readObject();
        }
    }

    public static void main(String[] words) throws Exception {
        String text = "text" + words.length;
        int[] numbers = {1, 2};
        System.out.println(copied(() -> text + numbers[1]).get());
        System.out.println(copied(text::trim).get());
        Runnable both = (Runnable & Serializable) () -> System.out.println("run");
        both.run();
    }
}
