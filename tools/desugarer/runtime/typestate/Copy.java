package typestate;

import java.util.Arrays;

/** Copies of arrays, for class files in which tools/desugar has put these methods in place of `clone`. They are new arrays of the same class. */
public final class Copy {
    private Copy() {
    }

    /** A copy of an array of boolean. */
    public static boolean[] copy(boolean[] array) {
        boolean[] made = new boolean[array.length];
        for (int at = 0; at < array.length; at++) {
            made[at] = array[at];
        }
        return made;
    }

    /** A copy of an array of byte. */
    public static byte[] copy(byte[] array) {
        byte[] made = new byte[array.length];
        for (int at = 0; at < array.length; at++) {
            made[at] = array[at];
        }
        return made;
    }

    /** A copy of an array of char. */
    public static char[] copy(char[] array) {
        char[] made = new char[array.length];
        for (int at = 0; at < array.length; at++) {
            made[at] = array[at];
        }
        return made;
    }

    /** A copy of an array of short. */
    public static short[] copy(short[] array) {
        short[] made = new short[array.length];
        for (int at = 0; at < array.length; at++) {
            made[at] = array[at];
        }
        return made;
    }

    /** A copy of an array of int. */
    public static int[] copy(int[] array) {
        int[] made = new int[array.length];
        for (int at = 0; at < array.length; at++) {
            made[at] = array[at];
        }
        return made;
    }

    /** A copy of an array of long. */
    public static long[] copy(long[] array) {
        long[] made = new long[array.length];
        for (int at = 0; at < array.length; at++) {
            made[at] = array[at];
        }
        return made;
    }

    /** A copy of an array of float. */
    public static float[] copy(float[] array) {
        float[] made = new float[array.length];
        for (int at = 0; at < array.length; at++) {
            made[at] = array[at];
        }
        return made;
    }

    /** A copy of an array of double. */
    public static double[] copy(double[] array) {
        double[] made = new double[array.length];
        for (int at = 0; at < array.length; at++) {
            made[at] = array[at];
        }
        return made;
    }

    /** A copy of an array of objects. The elements are stored once more, so that who reads this code sees them come over. */
    public static Object[] copy(Object[] array) {
        Object[] made = Arrays.copyOf(array, array.length);
        for (int at = 0; at < array.length; at++) {
            made[at] = array[at];
        }
        return made;
    }
}
