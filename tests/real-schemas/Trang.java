import com.thaiopensource.relaxng.translate.Driver;
import java.io.BufferedReader;
import java.io.InputStreamReader;
import java.io.PrintStream;

/**
 * Reads lines of two paths with a tab between: puts the schema at the first into the other's syntax and file. Writes a line with the status for each;
 * what trang itself says goes to standard error.
 */
public class Trang {
  public static void main(String[] words) throws Exception {
    PrintStream out = System.out;
    System.setOut(System.err);
    BufferedReader in = new BufferedReader(new InputStreamReader(System.in));
    for (String line = in.readLine(); line != null; line = in.readLine()) {
      int status;
      try {
        status = new Driver().run(line.split("\t"));
      } catch (Exception | StackOverflowError fault) {
        status = 3;
      }
      out.println("status " + status);
    }
  }
}
